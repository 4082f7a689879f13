#!/usr/bin/env python3
"""Compares 100,000 gets in one process, through one open table, with a plain Rust program that reads the same files the same way, over the three tables of
bench/keys.py of 500,000 put lines: keys in random order, each fourth of them mostly absent. What opening the table and reading the keys takes, that of one key, is
not taken off. At most 1.2 times the plain program's processor time is wanted. Ends with 1 where the sums of the values differ."""
import os
import random
import sys
import tempfile

HERE = os.path.dirname(os.path.abspath(__file__))
sys.path.insert(0, os.path.join(HERE, ".."))
from compare import RUNS, Runs, build_plain, instructions, measured, peak, print_busy, program_of, same
from keys import CELLS, Numbers, Types, Wide, write_puts

GETS = 100_000
# Each so many keys one is changed.
ABSENT = 4
# The greatest ratio to the plain program's time that is wanted.
WANTED = 1.2


def write_keys(keys, rows, target):
    """The texts of the keys that are asked for, a line each."""
    random.seed(13)
    lines = open(rows, encoding="ascii").read().splitlines()
    with open(target, "w", encoding="ascii") as asked:
        for count in range(GETS):
            key = [part if part.isalpha() else int(part) for part in random.choice(lines).split(",")[:-1]]
            if count % ABSENT == 0:
                key[-1] += 1
            asked.write(keys.key % tuple(key) + "\n")


def compare_keys(keys, program, gets):
    print("schema " + keys.schema)
    with tempfile.TemporaryDirectory() as folder:
        at = lambda name: os.path.join(folder, name)
        os.mkdir(at("table"))
        build_plain(os.path.join(HERE, "..", "get", "plain.rs"), at("plain.program"))
        write_puts(keys, at("script"), at("rows.csv"))
        measured([program, "load", "--schema", keys.schema, "--cells", str(CELLS)], at("script"), at("line"), at("table"))
        write_keys(keys, at("rows.csv"), at("table/keys.txt"))
        open(at("empty"), "wb").close()
        calls = {"proved": [gets], "plain": [at("plain.program"), "gets"]}
        runs = {name: Runs() for name in calls}
        for _ in range(RUNS):
            for name, words in calls.items():
                runs[name].add(*measured(words, at("empty"), at(name), at("table")))
        if not same(at("proved"), at("plain")):
            sys.exit("the two find different values")
        for name, words in calls.items():
            runs[name].count(peak(words, at("empty"), at("table")), instructions(words, at("empty"), at("table")))
            print(runs[name].row(name))
        print("proved to plain: " + runs["proved"].ratio(runs["plain"]))
        if runs["proved"].least() > WANTED * runs["plain"].least():
            print("over the wanted %.2f of the plain program's time" % WANTED)
        print_busy()


def main():
    program, gets = program_of("sigvhal"), program_of("gets_bench")
    if program is None or gets is None:
        return
    for keys in [Numbers(), Types(), Wide()]:
        compare_keys(keys, program, gets)


main()
