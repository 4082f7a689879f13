#!/usr/bin/env python3
"""Compares `list` with a plain Rust program of the same design: 500,000 put lines with keys in random order, some of them put again."""
import os
import random
import sys

HERE = os.path.dirname(os.path.abspath(__file__))
sys.path.insert(0, os.path.join(HERE, ".."))
from compare import compare
from keys import CELLS, LINES


def script(path):
    random.seed(7)
    with open(path, "w", encoding="ascii") as out:
        for _ in range(LINES):
            key = random.randrange(-1_200_000, 1_200_000)
            out.write("put (%d) () = 'value %08x'\n" % (key, random.getrandbits(32)))


WORDS = ["list", "--schema", "(int; ; text)"]
compare("sigvhal", WORDS + ["--cells", str(CELLS)], os.path.join(HERE, "plain.rs"), WORDS, script)
