#!/usr/bin/env python3
"""Runs the examples of README.md and docs/COMMANDS.md, and the Python program of docs/FORMATS.md.

    scripts/examples.py PROGRAM        PROGRAM is the built program, crates/sigvhal/out/sigvhal

An example is a line that begins with four spaces and `$ `. What stands below it, up to the next such line or the end of the block, is what it prints.
The name of the program is left out in docs/COMMANDS.md, and stands first in README.md, where the first examples run it by `rt run`.
It ends with 0 exactly where an example's last line is no line of an error.

Blocks are what stands between lines that aren't indented. Each is run in order in a fresh folder that has `examples/` in it. But a block whose first
command is `get` or `scan` reads a table and makes none: it goes on in the folder of the first block of its document with a `load`, whatever its heading.

The Python program of docs/FORMATS.md is run over the table of the typed keys, and has to print what `scan` prints but the last line. (scripts/formats.py looks at the bytes that are shown there.)

Prints a line for each example that differs, with what was expected and what came, and ends with 1 where there is one.
"""
import os
import re
import shlex
import shutil
import subprocess
import sys
import tempfile

TOP = os.path.dirname(os.path.dirname(os.path.abspath(__file__)))
RUN = re.compile(r"\(cd crates/sigvhal && rt run -- (.*)\)$")


def blocks(path):
    """The indented blocks of a document that begin with an example: of each the examples, as its line's number, its command and what it prints."""
    found, block = [], None
    for number, line in enumerate(open(path, encoding="utf-8"), 1):
        line = line.rstrip("\n")
        if not line.startswith("    "):
            block = None
        elif line.startswith("    $ "):
            if block is None:
                block = []
                found.append(block)
            block.append([number, line[6:], ""])
        elif block is not None:
            block[-1][2] += line[4:] + "\n"
    return found


def words_of(command):
    """The program's words in a command, and the file that is its standard input."""
    by_kit = RUN.match(command)
    if by_kit:
        command = by_kit.group(1).replace("../../examples/", "examples/")
    words = shlex.split(command)
    if words[0] == "sigvhal":
        words = words[1:]
    source = None
    if "<" in words:
        at = words.index("<")
        source, words = words[at + 1], words[:at] + words[at + 2:]
    return words, source


def run(program, words, folder, source):
    given = open(os.path.join(folder, source), "rb") if source else subprocess.DEVNULL
    done = subprocess.run([program] + words, cwd=folder, stdin=given, stdout=subprocess.PIPE)
    if source:
        given.close()
    return done.stdout.decode("utf-8", "replace"), done.returncode


def fresh(folders):
    folder = tempfile.mkdtemp(prefix="examples-")
    folders.append(folder)
    shutil.copytree(os.path.join(TOP, "examples"), os.path.join(folder, "examples"))
    return folder


def check(program, name, folders):
    """Runs the examples of a document, and answers how many there were and what differed."""
    table, count, wrong = None, 0, []
    for block in blocks(os.path.join(TOP, name)):
        first = words_of(block[0][1])[0][0]
        folder = table if first in ("get", "scan", "check") and table else fresh(folders)
        for number, command, expected in block:
            words, source = words_of(command)
            if words[0] == "load" and table is None:
                table = folder
            printed, status = run(program, words, folder, source)
            count += 1
            ends_well = not (expected.splitlines() or [""])[-1].startswith("error: ")
            if printed != expected or (status == 0) != ends_well:
                wrong.append(f"{name}:{number}: {command}\n  expected {expected!r}\n  printed  {printed!r}, status {status}")
    return count, wrong


# ---- docs/FORMATS.md


def reader(program, folders):
    """The Python program of docs/FORMATS.md over the table of the typed keys."""
    text = open(os.path.join(TOP, "docs/FORMATS.md"), encoding="utf-8").read()
    code = re.search(r"```python\n(.*?)```", text, re.S).group(1)
    folder = fresh(folders)
    run(program, ["load", "--schema", "(int, text; bigint reversed; text; text)"], folder, "examples/typed-keys.script")
    expected = run(program, ["scan"], folder, None)[0].rsplit("\n", 2)[0] + "\n"
    printed = run(sys.executable, ["-c", code], folder, None)[0]
    return 1, [] if printed == expected else [f"docs/FORMATS.md: the program\n  expected {expected!r}\n  printed  {printed!r}"]


def main():
    if len(sys.argv) != 2:
        sys.exit(__doc__)
    program, folders = os.path.abspath(sys.argv[1]), []
    try:
        results = [check(program, name, folders) for name in ("README.md", "docs/COMMANDS.md")]
        results += [reader(program, folders)]
    finally:
        for folder in folders:
            shutil.rmtree(folder)
    wrong = [text for _, texts in results for text in texts]
    for text in wrong:
        print(text)
    print(f"{sum(count for count, _ in results)} examples, {len(wrong)} wrong")
    sys.exit(1 if wrong else 0)


if __name__ == "__main__":
    main()
