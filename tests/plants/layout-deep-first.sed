s/^            ninth = begin;/            return checked_at((size_t)(begin - text), TUPEHIWO_DEEP);/
