/^static void bridge(struct state \*s, unsigned object)$/,/^}/{
s/^        flows\[0\] |= .*$/        for (struct set ends = things; !empty(\&ends);) {\n            unsigned q = take(\&ends);/
s/^        flows\[1\] |= .*$/            if (q != p)\n                add(s, FLOWS, q, p);\n        }/
}
