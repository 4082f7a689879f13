#!/usr/bin/env python3
"""Changes each byte of a table's four files in turn, and compares what the program answers with what a plain reader does. It takes long, and is no part of the gate.

    scripts/damage.py PROGRAM [--table NAME] [--part NAME] [--every N] [--jobs N] [--all]

PROGRAM is the built program, crates/sigvhal/out/sigvhal. The tables are `forty-rows`, forty rows of 1,000 bytes in three blocks, `three-blocks`, three rows of 16,384 bytes, and `static-parts`, a few
small partitions with static values.

Each byte is changed by three values in turn: its lowest bit, its highest bit, and all its bits. Over the files that this gives, `scan`, and a `get` of each key and of two that are absent have to print,
and end with, what `scripts/plain_reader.py` says, down to the place and the cause of damage, and `check` what `scripts/plain_checker.py` says. Where that is that they are sound, each `get` has to print
what Data.db lists at its key, whatever the indexes are. To spare processes a byte inside of a row's value is followed by `scan`, `check`, the `get` of that row and one of an absent key alone; with --all
by each `get`. --every N takes each N-th byte of a file only, --part one file, as `Rows`, --table one table.

Prints a line for each answer that differs and how many answers were compared; ends with 1 where one differs.
"""
import argparse
import concurrent.futures
import os
import shutil
import subprocess
import sys
import tempfile

from plain_checker import check, listed
from plain_reader import Files, components

CHANGES = (0x01, 0x80, 0xFF)
# Of each table the schema, the script, and keys that are absent: the text, and the strings of the partition and of the row or None.
ONE = bytes.fromhex("408000000138")
TWO = bytes.fromhex("408000000238")
TABLES = {
    "forty-rows": (
        "(int; int; blob)",
        "".join(f"put (1) ({i}) = 0x{'11' * 1000}\n" for i in range(40)),
        [("(1) (40)", ONE, bytes.fromhex("408000002838")), ("(2) (3)", TWO, bytes.fromhex("408000000338"))],
    ),
    "three-blocks": (
        "(int; text; blob)",
        "".join(f"put (1) ('{name}') = 0x{'11' * 16384}\n" for name in ("a", "b", "bc")),
        [("(1) ('bb')", ONE, b"\x40bb\0\x38"), ("(2) ('a')", TWO, b"\x40a\0\x38")],
    ),
    "static-parts": (
        "(int; int reversed; text; text)",
        "".join(f"put ({i}) static = 's{i}'\n" for i in range(0, 6, 2)) + "".join(f"put ({i % 5}) ({i}) = 'é{i}'\n" for i in range(12)),
        [("(1) static", ONE, None), ("(7) (1)", bytes.fromhex("408000000738"), bytes.fromhex("407ffffffe38"))],
    ),
}


class Key:
    """A key as a word of `get`, its strings, and where its value stands in Data.db."""

    def __init__(self, text, partition, row, start=0, end=0):
        self.text = text
        self.partition = partition
        self.row = row
        self.start = start
        self.end = end


def keys_of(files):
    """The keys of Data.db in order."""
    files.open()
    found, at, data = [], 0, files.contents["Data"]
    while at < len(data):
        string, behind = files.head(at)
        name = components(files.partition, string)
        value, at = files.static_part(behind)
        if value is not None:
            found.append(Key(name + " static", string, None, at - len(value), at))
        row = files.row_at(at)
        while row is not None:
            at = row[2]
            found.append(Key(f"{name} {components(files.row, row[0])}", string, row[0], at - len(row[1]), at))
            row = files.row_at(at)
        at += 1
    return found


class Worker:
    """A folder of its own with the files, of which one byte is changed at a time."""

    def __init__(self, program, folder, whole, absent):
        self.program = program
        self.folder = folder
        self.files = Files(whole)
        self.keys = keys_of(self.files)
        self.absent = absent

    def asked(self, part, at, whole):
        """The keys that are asked for when this byte is changed."""
        if not whole and part == "Data":
            for key in self.keys:
                if key.start <= at < key.end:
                    return [key, self.absent[0]]
        return self.keys + self.absent

    def printed(self, words):
        done = subprocess.run([self.program] + words, cwd=self.folder, stdin=subprocess.DEVNULL, stdout=subprocess.PIPE, close_fds=False)
        return done.stdout.decode("utf-8", "replace"), done.returncode

    def try_byte(self, part, at, byte, whole):
        """How many answers were compared, and the lines of those that differ."""
        changed = self.files.with_byte(part, at, byte)
        path = os.path.join(self.folder, Files.NAMES[part])
        with open(path, "r+b") as file:
            file.seek(at)
            file.write(bytes([byte]))
        count, wrong = 0, []
        line, status = check(changed)
        get = (lambda key: listed(changed, key.partition, key.row)) if status == 0 else (lambda key: changed.get(key.partition, key.row))
        calls = [(["scan"], changed.scan), (["check"], lambda: (line, status))]
        calls += [(["get", key.text], lambda key=key: get(key)) for key in self.asked(part, at, whole)]
        for words, reader in calls:
            found, wanted = self.printed(words), reader()
            count += 1
            if found != wanted:
                wrong.append(f"{part} at {at} set to {byte:02X}: {' '.join(words)}\n  program {shortened(found)}\n  reader  {shortened(wanted)}")
        with open(path, "r+b") as file:
            file.seek(at)
            file.write(self.files.contents[part][at : at + 1])
        return count, wrong


def shortened(answer):
    text, status = answer
    return f"status {status}, {len(text)} characters, the last {text[-120:]!r}"


def run_piece(program, whole, absent, tries, every_key):
    """Tries some bytes in a folder of its own."""
    room = "/dev/shm" if os.path.isdir("/dev/shm") else None
    folder = tempfile.mkdtemp(prefix="damage-", dir=room)
    try:
        for name in Files.NAMES.values():
            shutil.copy(os.path.join(whole, name), folder)
        worker = Worker(program, folder, whole, [Key(*key) for key in absent])
        results = [worker.try_byte(part, at, worker.files.contents[part][at] ^ change, every_key) for part, at in tries for change in CHANGES]
    finally:
        shutil.rmtree(folder)
    return sum(count for count, _ in results), [text for _, wrong in results for text in wrong]


def load(program, schema, script):
    folder = tempfile.mkdtemp(prefix="damage-")
    done = subprocess.run([program, "load", "--schema", schema], cwd=folder, input=script.encode(), stdout=subprocess.PIPE)
    if done.returncode:
        sys.exit(f"load: {done.stdout.decode()}")
    return folder


def run_table(program, name, options):
    schema, script, absent = TABLES[name]
    whole = load(program, schema, script)
    contents = Files(whole).contents
    parts = [part for part in contents if options.part in (None, part)]
    tries = [(part, at) for part in parts for at in range(0, len(contents[part]), options.every)]
    # Small pieces, dealt out evenly: those of the indexes take the most answers.
    pieces = [tries[i :: max(1, len(tries) // 50)] for i in range(max(1, len(tries) // 50))]
    count, wrong = 0, 0
    try:
        with concurrent.futures.ProcessPoolExecutor(options.jobs) as pool:
            jobs = [pool.submit(run_piece, program, whole, absent, piece, options.all) for piece in pieces]
            for job in concurrent.futures.as_completed(jobs):
                counted, texts = job.result()
                count, wrong = count + counted, wrong + len(texts)
                for text in texts:
                    print(f"{name}: {text}", flush=True)
    finally:
        shutil.rmtree(whole)
    print(f"{name}: {len(tries)} bytes, {count} answers, {wrong} differ", flush=True)
    return wrong


def main():
    parser = argparse.ArgumentParser(description=__doc__, formatter_class=argparse.RawDescriptionHelpFormatter)
    parser.add_argument("program")
    parser.add_argument("--table", choices=TABLES)
    parser.add_argument("--part", choices=Files.NAMES)
    parser.add_argument("--every", type=int, default=1)
    parser.add_argument("--jobs", type=int, default=os.cpu_count())
    parser.add_argument("--all", action="store_true")
    options = parser.parse_args()
    program = os.path.abspath(options.program)
    wrong = [run_table(program, name, options) for name in TABLES if options.table in (None, name)]
    sys.exit(1 if any(wrong) else 0)


if __name__ == "__main__":
    main()
