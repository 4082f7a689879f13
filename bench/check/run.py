#!/usr/bin/env python3
"""Compares `check` with a plain Rust program that looks at the same files in the same order, and with a `scan` of all rows, over the three tables of bench/keys.py
of 500,000 put lines, and one of a tenth of them to compare the memory. At most 1.2 times the plain program's processor time is wanted, and at most twice that of a
`scan`; and the memory doesn't grow with the rows. Ends with 1 where the answers differ."""
import os
import shutil
import sys
import tempfile

HERE = os.path.dirname(os.path.abspath(__file__))
sys.path.insert(0, os.path.join(HERE, ".."))
import keys as tables
from compare import RUNS, Runs, build_plain, instructions, measured, peak, print_busy, program_of, same
from keys import CELLS, Numbers, Types, Wide, write_puts

# The greatest ratios that are wanted: to the plain program's time, and to that of a `scan`.
WANTED = {"plain": 1.2, "scan": 2.0}


def loaded(keys, program, at):
    """A folder with the files of a table of such keys."""
    folder = at("table")
    shutil.rmtree(folder, ignore_errors=True)
    os.mkdir(folder)
    write_puts(keys, at("script"), at("rows.csv"))
    measured([program, "load", "--schema", keys.schema, "--cells", str(CELLS)], at("script"), at("line"), folder)
    return folder


def runs_of(calls, at, folder):
    """Runs each call in turn, and counts memory and instructions in runs of their own."""
    open(at("empty"), "wb").close()
    runs = {name: Runs() for name in calls}
    for _ in range(RUNS):
        for name, words in calls.items():
            runs[name].add(*measured(words, at("empty"), at(name), folder))
    for name, words in calls.items():
        runs[name].count(peak(words, at("empty"), folder), instructions(words, at("empty"), folder))
    if not same(at("proved"), at("plain")):
        sys.exit("the two print different text")
    return runs


def print_runs(runs):
    for name, of in runs.items():
        print(of.row(name))
    for name, wanted in WANTED.items():
        print("proved to %s: %s" % (name, runs["proved"].ratio(runs[name])))
        if runs["proved"].least() > wanted * runs[name].least():
            print("over the wanted %.2f of the time of %s" % (wanted, name))
    print_busy()


def compare_keys(keys, program):
    print("schema " + keys.schema)
    with tempfile.TemporaryDirectory() as folder:
        at = lambda name: os.path.join(folder, name)
        build_plain(os.path.join(HERE, "plain.rs"), at("plain.program"))
        calls = {"proved": [program, "check"], "plain": [at("plain.program"), "check"], "scan": [program, "scan"]}
        print_runs(runs_of(calls, at, loaded(keys, program, at)))
        lines, tables.LINES = tables.LINES, tables.LINES // 10
        small = peak(calls["proved"], at("empty"), loaded(keys, program, at))
        tables.LINES = lines
        if small is not None:
            print("memory of a check of a tenth of the rows: %d KiB" % small)


def main():
    program = program_of("sigvhal")
    if program is None:
        return
    for keys in [Numbers(), Types(), Wide()]:
        compare_keys(keys, program)


main()
