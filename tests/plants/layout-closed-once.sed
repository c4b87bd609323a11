s/for (; r->open > 0 \&\& r->at < r->end/if (r->at < r->end/;s/== \x27)\x27; r->at++)/== \x27)\x27 \&\& r->at++)/
