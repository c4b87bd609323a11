s/checked_at(ntext, TUPEHIWO_GRANTED)/checked_at(0, TUPEHIWO_GRANTED)/
