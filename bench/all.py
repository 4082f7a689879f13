#!/usr/bin/env python3
"""Runs all comparisons one after the other and prints one table of them.

    python3 bench/all.py [NAME ..] [--instructions] [--lines N]

NAME is the folder of a comparison, as `load`; without one all are run. With --instructions each counts instructions too, which takes some minutes, --lines takes another number of put lines than
500,000. What each prints stands in bench/build/NAME.txt. The table has, for each comparison and peer, what the proved program takes as a part of what the peer takes; what was skipped, and why, stands
below it. Ends with 1 where a comparison failed.
"""
import datetime
import os
import platform
import re
import subprocess
import sys

HERE = os.path.dirname(os.path.abspath(__file__))
NAMES = ["list", "load", "get", "gets", "check", "stores", "nodes", "trie", "shard"]
# What a line says of the proved program and a peer.
PARTS = re.compile(r"proved to ([\w ,]+): ([\d.]+) of the time  ([\d.]+) of the memory(?:  ([\d.]+) of the instructions)?(?:  ([\d.]+) of the wall time)?$")
PROCESSOR = re.compile(r"proved to ([\w ,]+): processor ([\d.]+) \(median [\d.]+\), wall ([\d.]+) ")
BEYOND = re.compile(r"beyond a start: .*\(([\d.]+) times\)$")
RATES = re.compile(r"(\w+), (\w+): .*proved takes ([\d.]+) of the plain time$")
LOCKED = re.compile(r"both, (\w+): ([\d.]+) times as many a second as behind the lock$")
HEADING = re.compile(r"(load(, four shards)?|scan|get|pack|find|puts|lookups \d+|get of \d+ keys.*|scan of \d+ rows)$")
SKIPPED = re.compile(r"skipped: |.* is missing|.* aren't counted")


class Row:
    """One comparison with one peer: parts of its processor time, wall time, memory and instructions, as texts."""

    def __init__(self, what, peer, time="", wall="", memory="", instructions=""):
        self.cells = [what, peer, time, wall, memory, instructions]


def row_of(line, what):
    """The row of a line of a comparison, or None."""
    found = PARTS.match(line)
    if found:
        peer, time, memory, instructions, wall = (part or "" for part in found.groups())
        return Row(what, peer, time, wall, memory, instructions)
    found = PROCESSOR.match(line)
    if found:
        return Row(what, found[1], found[2], found[3])
    found = BEYOND.match(line)
    if found:
        return Row(what + ", beyond a start", "plain", found[1])
    found = RATES.match(line)
    if found:
        return Row(f"{found[2]} ({found[1]})", "plain", "", found[3])
    found = LOCKED.match(line)
    if found:
        return Row(f"{found[1]} (both)", "a map behind a lock", "", "%.3f" % (1 / float(found[2])))
    return None


def read(name, text):
    """The rows of what a comparison printed, and what it skipped."""
    rows, skipped, schema, what = [], [], "", ""
    for line in text.splitlines():
        if line.startswith("schema "):
            schema, what = line[7:], ""
        elif HEADING.match(line):
            what = re.sub(r" of \d+ keys.*", "", line)
        elif SKIPPED.match(line):
            skipped += [f"{name}: {line}"] * (f"{name}: {line}" not in skipped)
        else:
            row = row_of(line, " ".join(part for part in (name + ":", what, schema) if part))
            rows += [row] if row else []
    return rows, skipped


def run(name, words):
    """Runs a comparison with the words, and gives what it prints, and whether it failed."""
    done = subprocess.run([sys.executable, os.path.join(HERE, name, "run.py")] + words, stdout=subprocess.PIPE, stderr=subprocess.STDOUT)
    text = done.stdout.decode("utf-8", "replace")
    os.makedirs(os.path.join(HERE, "build"), exist_ok=True)
    with open(os.path.join(HERE, "build", name + ".txt"), "w", encoding="utf-8") as out:
        out.write(text)
    return text, done.returncode != 0


def processor():
    try:
        with open("/proc/cpuinfo", encoding="utf-8") as file:
            return re.search(r"model name\s*: (.*)", file.read())[1]
    except (OSError, TypeError):
        return platform.machine()


def print_table(rows):
    heads = ["comparison", "peer", "processor time", "wall time", "memory", "instructions"]
    print("| " + " | ".join(heads) + " |")
    print("|" + "---|" * len(heads))
    for row in rows:
        print("| " + " | ".join(row.cells) + " |")


def main():
    words = sys.argv[1:]
    if any(word in ("-h", "--help") for word in words):
        sys.exit(__doc__)
    if "--lines" in words:
        at = words.index("--lines")
        os.environ["BENCH_LINES"] = words[at + 1]
        del words[at : at + 2]
    chosen = [word for word in words if not word.startswith("--")] or NAMES
    options = [word for word in words if word.startswith("--")]
    if set(chosen) - set(NAMES):
        sys.exit(__doc__)
    print(f"{processor()}, {os.cpu_count()} processors, {platform.system()} {platform.release()}, {datetime.date.today()}, load average {os.getloadavg()[0]:.1f} at the beginning")
    rows, skipped, failed = [], [], []
    for name in chosen:
        text, has_failed = run(name, options)
        more, left = read(name, text)
        rows, skipped = rows + more, skipped + left
        if has_failed:
            failed.append(f"{name} failed: {text.strip().splitlines()[-1] if text.strip() else 'no text'}")
    print_table(rows)
    for line in skipped + failed:
        print(line)
    print(f"load average {os.getloadavg()[0]:.1f} at the end")
    sys.exit(1 if failed else 0)


if __name__ == "__main__":
    main()
