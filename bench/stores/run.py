#!/usr/bin/env python3
"""Compares `load`, `scan` and `get` with LMDB, LevelDB and RocksDB, each through the small C++ program of this folder, over the three tables of bench/keys.py of 500,000 put lines. The C++ program
reads the same script, makes the same strings of keys and prints the same text, and waits for no disk; its stores keep their own options. The first table is also loaded over four shards. A store
whose library isn't installed is skipped (Debian: liblmdb-dev, libleveldb-dev, librocksdb-dev). Ends with 1 where a text differs."""
import os
import random
import shutil
import subprocess
import sys
import tempfile
import time

HERE = os.path.dirname(os.path.abspath(__file__))
sys.path.insert(0, os.path.join(HERE, ".."))
from compare import RUNS, Runs, instructions, measured, peak, print_busy, program_of, same
from keys import CELLS, Numbers, Types, Wide, write_puts

STORES = ["lmdb", "leveldb", "rocksdb"]
GETS = 100
# The three places between the shards of random keys of the first table.
SHARDS = ["--bounds", "(-600000)(0)(600000)"]


def built(at):
    """The program of each store whose library is there."""
    programs = {}
    compiler = shutil.which("c++") or shutil.which("g++")
    for store in STORES:
        words = [compiler, "-std=c++17", "-O2", "-DUSE_" + store.upper(), "-o", at(store + ".program"), os.path.join(HERE, "stores.cpp"), "-l" + store]
        if compiler is None or subprocess.run(words, stdout=subprocess.DEVNULL, stderr=subprocess.DEVNULL).returncode:
            print("skipped: %s, whose library or a compiler is missing" % store)
        else:
            programs[store] = at(store + ".program")
    return programs


class Timed:
    """The runs of one call, and their wall times."""

    def __init__(self):
        self.runs = Runs()
        self.wall = []

    def add(self, words, source, target, folder):
        began = time.perf_counter()
        self.runs.add(*measured(words, source, target, folder))
        self.wall.append(time.perf_counter() - began)

    def row(self, name):
        return "%s  wall %.3f s" % (self.runs.row(name), min(self.wall))

    def ratio(self, peer):
        return "%s  %.2f of the wall time" % (self.runs.ratio(peer.runs), min(self.wall) / min(peer.wall))


def some_keys(csv, keys):
    random.seed(11)
    rows = [line.split(",")[:-1] for line in open(csv, encoding="ascii").read().splitlines()]
    return [keys.key % tuple(row) for row in random.sample(rows, GETS)]


class Table:
    """The calls over one table, in a folder for each program."""

    def __init__(self, keys, programs, at):
        self.programs = programs
        self.at = at
        self.schema = keys.schema
        write_puts(keys, at("script"), at("csv"))
        open(at("empty"), "wb").close()
        self.keys = some_keys(at("csv"), keys)

    def load_words(self, name, more):
        words = [self.programs[name], "load", "--schema", self.schema]
        return words + (["--cells", str(CELLS)] + more if name == "proved" else [])

    def empty(self, name):
        folder = self.at(name)
        shutil.rmtree(folder, ignore_errors=True)
        os.mkdir(folder)
        return folder

    def compare(self, what, calls, source, fresh):
        """Runs the calls in turn, tells their times and the ratios, and ends where a text differs."""
        timed = {name: Timed() for name in calls}
        for _ in range(RUNS):
            for name, words in calls.items():
                folder = self.empty(name) if fresh else self.at(name)
                timed[name].add(words, source, self.at(name + ".out"), folder)
        for name, words in calls.items():
            folder = self.empty("counted") if fresh else self.at(name)
            memory = peak(words, source, folder)
            folder = self.empty("counted") if fresh else folder
            timed[name].runs.count(memory, instructions(words, source, folder))
        print(what)
        for name in calls:
            print(timed[name].row(name))
            if not fresh and not same(self.at(name + ".out"), self.at("proved.out")):
                sys.exit("%s prints other text" % name)
        for name in list(calls)[1:]:
            print("proved to %s: %s" % (name, timed["proved"].ratio(timed[name])))

    def loads(self, what, more):
        self.compare(what, {name: self.load_words(name, more) for name in self.programs}, self.at("script"), True)

    def scans(self):
        self.compare("scan", {name: [program, "scan"] for name, program in self.programs.items()}, self.at("empty"), False)

    def gets(self):
        """Each key once by each program, process start and all."""
        timed = {name: Timed() for name in self.programs}
        for key in self.keys:
            for name, program in self.programs.items():
                timed[name].add([program, "get", key], self.at("empty"), self.at(name + ".out"), self.at(name))
                if not same(self.at(name + ".out"), self.at("proved.out")):
                    sys.exit("%s answers %s otherwise" % (name, key))
        print("get")
        for name, program in self.programs.items():
            words = [program, "get", self.keys[0]]
            timed[name].runs.count(peak(words, self.at("empty"), self.at(name)), instructions(words, self.at("empty"), self.at(name)))
            print(timed[name].row(name))
        for name in list(self.programs)[1:]:
            print("proved to %s: %s" % (name, timed["proved"].ratio(timed[name])))


def main():
    program = program_of("sigvhal")
    if program is None:
        return
    with tempfile.TemporaryDirectory() as folder:
        programs = {"proved": program, **built(lambda name: os.path.join(folder, name))}
        if len(programs) == 1:
            return
        for keys in [Numbers(), Types(), Wide()]:
            with tempfile.TemporaryDirectory(dir=folder) as room:
                table = Table(keys, programs, lambda name: os.path.join(room, name))
                print("schema " + keys.schema)
                if isinstance(keys, Numbers):
                    table.loads("load, four shards", SHARDS)
                table.loads("load", [])
                table.scans()
                table.gets()
    print_busy()


main()
