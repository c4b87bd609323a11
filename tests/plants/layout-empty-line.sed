/^static struct tupehiwo_checked check_layout(/,/^}/s/^        const uint8_t \*begin = r.at;/        if (*r.at == 10 \&\& r.at++)\n            continue;\n&/
