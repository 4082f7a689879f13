#!/usr/bin/env python3
"""Compares `load` and then `scan` with a plain Rust program and with sqlite3, over a table of numbers, one of keys of several types, and one of wide partitions:
500,000 put lines with keys in random order, some of them put again, each run in an empty folder. The plain program has to write the same four files and the same
text, and sqlite3 to give the same rows. At most 1.3 times the plain program's time is wanted."""
import os
import shutil
import sys
import tempfile

HERE = os.path.dirname(os.path.abspath(__file__))
sys.path.insert(0, os.path.join(HERE, ".."))
from compare import RUNS, Runs, build_plain, instructions, measured, peak, print_busy, program_of, same
from keys import CELLS, Numbers, Types, Wide, sqlite_calls, write_puts

STEPS = ["load", "scan"]
FILES = ["1-Data.db", "1-Partitions.db", "1-Rows.db", "1-Schema.txt"]
# The greatest ratio to the plain program's time that is wanted.
WANTED = 1.3
# A cache of this many KiB holds the whole table; sqlite3's own is 2,000.
CACHE = 131_072


def calls_of(keys, program, plain, csv):
    """The calls of each of the compared programs by their step."""
    load = ["load", "--schema", keys.schema]
    calls = {
        "proved": {"load": [program] + load + ["--cells", str(CELLS)], "scan": [program, "scan"]},
        "plain": {"load": [plain] + load, "scan": [plain, "scan"]},
    }
    if shutil.which("sqlite3") is None:
        print("sqlite3 is missing, so it isn't compared")
        return calls
    calls["sqlite3"] = sqlite_calls(keys, csv, [])
    calls["sqlite3, big cache"] = sqlite_calls(keys, csv, ["pragma cache_size=-%d" % CACHE])
    return calls


def empty(folder):
    shutil.rmtree(folder, ignore_errors=True)
    os.mkdir(folder)


def run_once(name, calls, at, runs):
    """Loads and scans in an empty folder."""
    empty(at(name))
    for step in STEPS:
        runs[step].add(*measured(calls[step], at(step + ".in"), at("%s.%s" % (name, step)), at(name)))


def count_once(name, calls, at, runs):
    """The same in folders of their own, with the memory and the instructions counted."""
    counts = {}
    for counter in [peak, instructions]:
        empty(at("counted"))
        counts[counter] = {step: counter(calls[step], at(step + ".in"), at("counted")) for step in STEPS}
    for step in STEPS:
        runs[step].count(counts[peak][step], counts[instructions][step])


def rows_text(keys, printed):
    """The text of `scan` for what sqlite3 printed."""
    lines = open(printed, encoding="ascii").read().splitlines()
    columns = [line.split("|") for line in lines]
    rows = ["%s = '%s'\n" % (keys.key % tuple(row[:-1]), row[-1]) for row in columns]
    return "".join(rows) + "rows %d\n" % len(rows)


def check(keys, names, at):
    """Ends where the programs differ in a file or a text."""
    for step in STEPS:
        if not same(at("proved." + step), at("plain." + step)):
            sys.exit("the two print different text for " + step)
    for name in FILES:
        if not same(at("proved/" + name), at("plain/" + name)):
            sys.exit("the two write different bytes to " + name)
    for folder in ["proved", "plain"]:
        if sorted(os.listdir(at(folder))) != FILES:
            sys.exit("%s leaves other files than %s" % (folder, ", ".join(FILES)))
    scanned = open(at("proved.scan"), encoding="ascii").read()
    for name in names:
        if name.startswith("sqlite3") and rows_text(keys, at(name + ".scan")) != scanned:
            sys.exit(name + " has other rows")


def run_all(keys, calls, at):
    runs = {name: {step: Runs() for step in STEPS} for name in calls}
    for _ in range(RUNS):
        for name in calls:
            run_once(name, calls[name], at, runs[name])
    check(keys, calls, at)
    for name in calls:
        count_once(name, calls[name], at, runs[name])
    return runs


def print_runs(runs):
    for step in STEPS:
        print(step)
        for name in runs:
            print(runs[name][step].row(name))
        for name in list(runs)[1:]:
            print("proved to %s: %s" % (name, runs["proved"][step].ratio(runs[name][step])))
        if runs["proved"][step].least() > WANTED * runs["plain"][step].least():
            print("over the wanted %.2f of the plain program's time" % WANTED)
    print_busy()


def compare_keys(keys, program):
    """Compares over a table of such keys."""
    print("schema " + keys.schema)
    with tempfile.TemporaryDirectory() as folder:
        at = lambda name: os.path.join(folder, name)
        build_plain(os.path.join(HERE, "plain.rs"), at("plain.program"))
        write_puts(keys, at("load.in"), at("rows.csv"))
        open(at("scan.in"), "wb").close()
        print_runs(run_all(keys, calls_of(keys, program, at("plain.program"), at("rows.csv")), at))


def main():
    program = program_of("sigvhal")
    if program is None:
        return
    for keys in [Numbers(), Types(), Wide()]:
        compare_keys(keys, program)


main()
