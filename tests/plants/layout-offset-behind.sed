s/checked_at((size_t)(r.at - text), TUPEHIWO_FORM)/checked_at((size_t)(r.at - text) + 1, TUPEHIWO_FORM)/
