#!/usr/bin/env python3
"""Compares a shard's writer and readers with a plain Rust program of the same design, and with an ordered map behind a lock: puts a second of one writer alone, finds a second
of one reader alone, and both while one writer and three readers run beside each other. The least time of several runs in turn counts. Last, what a shard holds in bytes.

The plain program's loads and stores are sequentially consistent, as the proved ones are; the same with release stores and acquire loads is shown beside it."""
import os
import re
import subprocess
import sys
import tempfile

HERE = os.path.dirname(os.path.abspath(__file__))
sys.path.insert(0, os.path.join(HERE, ".."))
from compare import build_plain, instructions, peak, print_busy, program_of

COUNT = 100000
LOOKUPS = 1000000
RUNS = 9
KINDS = {"put": ["puts"], "find": ["finds"], "both": ["puts", "finds"]}


def rates(call):
    """Calls a second by their kind, from the line that each writes to standard error."""
    told = subprocess.run(call, capture_output=True, text=True, check=True).stderr
    return {kind: int(calls) * 1e9 / max(int(nanos), 1) for kind, calls, nanos in re.findall(r"(\w+) (\d+) ns (\d+)", told)}


def best_of(programs, work, runs=RUNS):
    """The best rate of each program and kind over runs in turn."""
    best = {}
    for _ in range(runs):
        for name, call in programs.items():
            for kind, rate in rates(call + [work, str(COUNT), str(LOOKUPS)]).items():
                best[name, kind] = max(best.get((name, kind), 0), rate)
    return best


def show(work, best, peers):
    """One line for each kind of call: the rates, and how many times the plain program's time the proved one takes."""
    for kind in KINDS[work]:
        words = ["%s %.2f million/s" % (name, best[name, kind] / 1e6) for name in ["proved"] + peers]
        times = best["plain", kind] / best["proved", kind]
        print("%s, %s: %s; proved takes %.2f of the plain time" % (work, kind, ", ".join(words), times))


def main():
    program = program_of("shard_bench")
    if program is None:
        return
    with tempfile.TemporaryDirectory() as folder:
        plain = os.path.join(folder, "plain")
        build_plain(os.path.join(HERE, "plain.rs"), plain)
        programs = {"proved": [program], "plain": [plain, "cells"], "release": [plain, "release"]}
        for work in ["put", "find", "both"]:
            show(work, best_of(programs, work), ["plain", "release"])
        locked = best_of({"proved": [program], "locked": [plain, "locked"]}, "both", 2)
        for kind in KINDS["both"]:
            print("both, %s: %.1f times as many a second as behind the lock" % (kind, locked["proved", kind] / locked["locked", kind]))
        cells = 3 * COUNT + 1024
        words = ["put", str(COUNT), "0"]
        for name, call in programs.items():
            held = peak(call + words, os.devnull)
            if held is not None and name != "release":
                print("%s: %d cells, %d KiB at most, %.0f bytes a cell" % (name, cells, held, held * 1024 / cells))
        for work in ["put", "find"]:
            for name, call in programs.items():
                counted = instructions(call + [work, str(COUNT), str(LOOKUPS)], os.devnull)
                if counted is not None:
                    print("%s, %s: %.0f million instructions" % (work, name, counted / 1e6))
    print_busy()


main()
