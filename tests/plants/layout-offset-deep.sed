s/checked_at((size_t)(ninth - text)/checked_at((size_t)(ninth - text) - 1/
