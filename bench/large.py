#!/usr/bin/env python3
"""large.py KIND: prints a large script over a post of this kind, for measuring: sixteen cabinets in a line, and always the same."""

import random
import sys

LINES = 5000
LETTERS = ["lkd", "llk", "lllkdlk", "dlkllkd", "k", "lldl"]


def main(kind):
    r = random.Random(7)
    print("post", kind, sep="\t")
    if kind == "retry":
        print("misses", 5, sep="\t")
        for w in range(60):
            print("pattern", w, r.choice(LETTERS), sep="\t")
    for k in range(16):
        print("cabinet", k, max(0, k - 1), sep="\t")
    print("plant")
    for _ in range(LINES):
        roll, n = r.random(), r.randrange(16)
        if roll < 0.3:
            print("want", n, sep="\t")
        elif roll < 0.6:
            print("leave", n, sep="\t")
        else:
            print("sweep", r.randrange(1, 20), sep="\t")


main(sys.argv[1])
