s/    input.end = kept + (n > 0 ? (size_t)n : 0);/    input.end = kept + (n > 0 ? (size_t)n : 0), input.end -= input.end == BLOCK;/
