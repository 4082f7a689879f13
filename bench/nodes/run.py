#!/usr/bin/env python3
"""Compares the packer and the parser of index nodes with a plain Rust program of the same design: 200,000 ascending keys of 6 to 20 bytes are packed into
pages, and each of them is found by parsing the nodes on the way. The first comparison is of packing alone, the second of both."""
import os
import sys

HERE = os.path.dirname(os.path.abspath(__file__))
sys.path.insert(0, os.path.join(HERE, ".."))
from compare import compare

for work in ["pack", "find"]:
    print(work)
    compare("pages_bench", [work, "200000"], os.path.join(HERE, "plain.rs"), [work, "200000"])
