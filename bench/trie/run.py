#!/usr/bin/env python3
"""Compares the trie's image with a plain Rust program of the same design: an image of 100,000 keys of six bytes is made put by put, and keys of it are looked up.
The first comparison is of the puts, the second of one million lookups without them, the third of twenty million."""
import os
import sys

HERE = os.path.dirname(os.path.abspath(__file__))
sys.path.insert(0, os.path.join(HERE, ".."))
from compare import compare

PUTS = ["build", "100000"]
PLAIN = os.path.join(HERE, "plain.rs")

print("puts")
compare("trie_bench", PUTS, PLAIN, PUTS)
for lookups in ["1000000", "20000000"]:
    print("lookups", lookups)
    words = ["find", "100000", lookups]
    compare("trie_bench", words, PLAIN, words, before=PUTS)
