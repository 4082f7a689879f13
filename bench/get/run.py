#!/usr/bin/env python3
"""Compares a `get` and a `scan` of 100 rows with a plain Rust program that reads the same files the same way, and the `get` with sqlite3, over the three tables of
bench/keys.py of 500,000 put lines. Each run is a process of its own, start and all; the programs run in turn. A `get` of at most 1.2 times the plain program's
processor time and half of sqlite3's is wanted, and a `scan` of at most 1.2 times the plain program's. The two programs are linked differently, so what a `scan`
takes beyond a start, that of words which are refused, is told too; a `get` takes too little beyond one to be told by time. With the word --instructions the
instructions of a run are counted by valgrind. Ends with 1 where answers differ."""
import os
import random
import re
import shutil
import statistics
import subprocess
import sys
import tempfile
import time

HERE = os.path.dirname(os.path.abspath(__file__))
sys.path.insert(0, os.path.join(HERE, ".."))
from compare import build_plain, instructions, measured, print_busy, program_of
from keys import CELLS, Numbers, Types, Wide, sqlite_calls, write_puts

GETS = 200
# Each so many keys one is changed, and mostly absent then.
ABSENT = 4
ROWS = 100
SCANS = 60
# The greatest ratios that are wanted to each program's time.
WANTED = {"plain": 1.2, "sqlite3": 0.5}


class Times:
    """The wall and the processor milliseconds of the runs of one program."""

    def __init__(self):
        self.wall = []
        self.processor = []

    def run(self, words, folder, status=0):
        """Runs the program once, which ends with the status, and gives what it prints."""
        began = time.perf_counter()
        child = subprocess.Popen(words, stdin=subprocess.DEVNULL, stdout=subprocess.PIPE, cwd=folder)
        text = child.stdout.read()
        _, ended, usage = os.wait4(child.pid, 0)
        self.wall.append(1e3 * (time.perf_counter() - began))
        child.stdout.close()
        child.returncode = os.waitstatus_to_exitcode(ended)
        if child.returncode != status:
            sys.exit("%s ended with status %d" % (" ".join(words), child.returncode))
        self.processor.append(1e3 * (usage.ru_utime + usage.ru_stime))
        return text.decode("utf-8")

    def row(self):
        told = lambda times: "%.2f ms (median %.2f)" % (min(times), statistics.median(times))
        return "processor %s, wall %s" % (told(self.processor), told(self.wall))

    def ratio(self, other):
        """How many times the other program's least and median processor time, and wall time, these are."""
        both = lambda mine, theirs: "%.2f (median %.2f)" % (min(mine) / min(theirs), statistics.median(mine) / statistics.median(theirs))
        return "processor %s, wall %s" % (both(self.processor, other.processor), both(self.wall, other.wall))


class Table:
    """A loaded table in a folder, with the rows that it has."""

    def __init__(self, keys, program, plain, at):
        self.keys = keys
        self.programs = {"proved": program, "plain": plain}
        self.folder = at("table")
        os.mkdir(self.folder)
        write_puts(keys, at("script"), at("rows.csv"))
        load = [program, "load", "--schema", keys.schema, "--cells", str(CELLS)]
        measured(load, at("script"), at("line"), self.folder)
        self.rows = [line.split(",") for line in open(at("rows.csv"), encoding="ascii").read().splitlines()]
        self.has_sqlite = shutil.which("sqlite3") is not None
        if self.has_sqlite:
            open(at("empty"), "wb").close()
            measured(sqlite_calls(keys, at("rows.csv"), [])["load"], at("empty"), at("line"), self.folder)

    def some_keys(self):
        """Keys of the table, and some that are mostly absent: their last number is another."""
        random.seed(11)
        found = []
        for count in range(GETS):
            key = [part if part.isalpha() else int(part) for part in random.choice(self.rows)[:-1]]
            if count % ABSENT == 0:
                key[-1] += 1
            found.append(tuple(key))
        return found

    def get_words(self, name, key):
        if name == "sqlite3":
            return ["sqlite3", "table.db", "select value from rows where " + self.keys.where % key]
        return [self.programs[name], "get", self.keys.key % key]

    def start(self, times):
        """Starts each of the two programs once, with words that are refused."""
        for name, program in self.programs.items():
            times[name].run([program, "get"], self.folder, 1)

    def gets(self):
        """Each program's times over all keys; ends where an answer differs."""
        times = {name: Times() for name in list(self.programs) + ["sqlite3"] * self.has_sqlite}
        absent = 0
        for key in self.some_keys():
            answers = {name: of.run(self.get_words(name, key), self.folder) for name, of in times.items()}
            if self.has_sqlite:
                value = answers["sqlite3"].rstrip("\n")
                answers["sqlite3"] = "'%s'\n" % value if value else "none\n"
            if len(set(answers.values())) != 1:
                sys.exit("the answers for %s differ: %s" % (self.keys.key % key, answers))
            absent += answers["proved"] == "none\n"
        print("get of %d keys, %d of them absent" % (GETS, absent))
        return times

    def bounds(self):
        """The words of a scan of so many rows in the middle."""
        text = subprocess.run([self.programs["proved"], "scan"], stdout=subprocess.PIPE, cwd=self.folder, check=True).stdout.decode("utf-8")
        lines = text.splitlines()[:-1]
        middle = len(lines) // 2
        ends = [lines[place].split(" = ")[0] for place in (middle, middle + ROWS - 1)]
        # A partition alone is the bound where a row has no components of its own.
        ends = [end[:-3] if end.endswith(" ()") else end for end in ends]
        return ["scan", "--from", ends[0], "--to", ends[1]], lines[middle : middle + ROWS]

    def scans(self):
        """Each program's times, those of its start, and the words of the scan; ends where a text differs."""
        words, lines = self.bounds()
        wanted = "".join(line + "\n" for line in lines + ["rows %d" % ROWS])
        times = {name: Times() for name in self.programs}
        starts = {name: Times() for name in self.programs}
        for _ in range(SCANS):
            for name, of in times.items():
                if of.run([self.programs[name]] + words, self.folder) != wanted:
                    sys.exit("%s prints other text for %s" % (name, words))
            self.start(starts)
        print("scan of %d rows" % ROWS)
        return times, starts, words


def print_beyond(times, starts):
    """Tells what each of the two programs takes beyond its start, by the medians of processor times."""
    beyond = {name: statistics.median(times[name].processor) - statistics.median(of.processor) for name, of in starts.items()}
    told = ", ".join("%s %.3f ms" % each for each in beyond.items())
    print("beyond a start: %s (%.2f times)" % (told, beyond["proved"] / beyond["plain"]))


def print_times(times):
    for name, of in times.items():
        print("%-8s %s" % (name, of.row()))
    for name, of in times.items():
        if name == "proved":
            continue
        print("proved to %s: %s" % (name, times["proved"].ratio(of)))
        if min(times["proved"].processor) > WANTED[name] * min(of.processor):
            print("over the wanted %.2f of %s's time" % (WANTED[name], name))
    print_busy()


def reads(words, folder, at):
    """How many reads a run makes, those of its start among them; None where they can't be counted."""
    done = subprocess.run(["strace", "-c", "-o", at("strace"), "-e", "trace=read,pread64"] + words, stdout=subprocess.DEVNULL, cwd=folder)
    if done.returncode != 0:
        return None
    # The columns are the share, the seconds, the microseconds a call, and the calls.
    rows = re.findall(r"^ *[\d.]+ +[\d.]+ +\d+ +(\d+) .*(?:read|pread64)$", open(at("strace"), encoding="ascii").read(), re.MULTILINE)
    return sum(map(int, rows))


def print_counts(table, words, at):
    """Tells how many reads and instructions a get and a scan take, where these can be counted and are asked for."""
    open(at("empty"), "wb").close()
    has_strace = shutil.which("strace") is not None
    if not has_strace:
        print("strace is missing, so reads aren't counted")
    for what, ends in [("get", ["get", table.keys.key % table.some_keys()[1]]), ("scan of %d rows" % ROWS, words)]:
        calls = {name: [program] + ends for name, program in table.programs.items()}
        if has_strace:
            told = ["%s %s" % (name, reads(call, table.folder, at)) for name, call in calls.items()]
            print("reads of a %s, those of a start among them: %s" % (what, ", ".join(told)))
        if "--instructions" in sys.argv:
            told = ["%s %s" % (name, instructions(call, at("empty"), table.folder)) for name, call in calls.items()]
            print("instructions of a %s, those of a start among them: %s" % (what, ", ".join(told)))


def compare_keys(keys, program):
    print("schema " + keys.schema)
    with tempfile.TemporaryDirectory() as folder:
        at = lambda name: os.path.join(folder, name)
        build_plain(os.path.join(HERE, "plain.rs"), at("plain.program"))
        table = Table(keys, program, at("plain.program"), at)
        if not table.has_sqlite:
            print("sqlite3 is missing, so it isn't compared")
        print_times(table.gets())
        times, starts, words = table.scans()
        print_times(times)
        print_beyond(times, starts)
        print_counts(table, words, at)


def main():
    program = program_of("sigvhal")
    if program is None:
        return
    for keys in [Numbers(), Types(), Wide()]:
        compare_keys(keys, program)


main()
