s/checked_at((size_t)(r.at - text), TUPEHIWO_FORM)/checked_at((size_t)(begin - text), TUPEHIWO_FORM)/
