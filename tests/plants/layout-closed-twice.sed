s/for (; r->open > 0 \&\& r->at/for (; r->at/;s/^        r->open--;/        r->open -= r->open > 0;/
