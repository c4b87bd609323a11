s/form.depth == TUPEHIWO_LAYOUT_DEPTH \&\&/form.depth == TUPEHIWO_LAYOUT_DEPTH - 1 \&\&/
