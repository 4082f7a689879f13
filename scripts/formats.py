#!/usr/bin/env python3
"""Recomputes each example of docs/FORMATS.md, from the built program and from a plain reader.

    scripts/formats.py PROGRAM        PROGRAM is the built program, crates/sigvhal/out/sigvhal

- Bytes of files stand under a comment that names a table of `TABLES` below, its file and the place from which they stand, perhaps to the file's end. The program loads the table, and has to leave
  these bytes. `scripts/plain_reader.py` has to answer each `get` of a row's key, and `scan`, as the program does.
- Nodes stand in a table of their own. The plain reader has to find the children and the payload that the row names, and `spelled` has to give the row's bytes back, but for the type that is never
  written and the row that says so.
- Cells stand under a comment that names an image of `IMAGES` and a cell. `scripts/cells.py` makes the puts of the image, whose keys' strings the program tells, and after each put the program has to
  have taken as many cells.
- The tries of more tables, `GENERATED`, are walked whole: each node has to stand as `spelled` writes it, in one page, with nothing but zeros between, and the paths have to be the shortest unique
  prefixes and separators of what Data.db lists, with its places.

Prints a line for each that differs, and ends with 1 where there is one.
"""
import os
import random
import re
import shutil
import subprocess
import sys
import tempfile

import cells
import plain_reader
from plain_reader import PAGE, TYPES, Files, Node

TOP = os.path.dirname(os.path.dirname(os.path.abspath(__file__)))
PAGE_TEXT = os.path.join(TOP, "docs/FORMATS.md")

TABLES = [
    ("(int; ; text)", "put (1) () = 'a'\n"),
    ("(int; int; text; text)", "put (1) static = 's'\nput (1) (2) = 'a'\n"),
    ("(int; int; blob)", "".join(f"put (1) ({i}) = 0x{'ab' * 1000}\n" for i in range(40))),
    ("(int; ; text)", "".join(f"put ({i}) () = 'a'\n" for i in range(1000))),
]

# Of each image the schema, and the puts: the list of the partition, that of the row or None for its static value, and the value's bytes.
SMALL = "(tinyint; ; text)"
IMAGES = [
    ("(int; ; text)", [("(1)", "()", b"a")]),
    ("(int; int; text; text)", [("(1)", None, b"s"), ("(1)", "(2)", b"a")]),
    (SMALL, [("(1)", "()", b"a"), ("(2)", "()", b"b"), ("(0)", "()", b"c")]),
    (SMALL, [(f"({i})", "()", b"x") for i in range(7)]),
]


def run(program, words, folder=None, given=""):
    done = subprocess.run([program] + words, cwd=folder, input=given.encode(), stdout=subprocess.PIPE)
    return done.stdout.decode("utf-8", "replace"), done.returncode


class Folders:
    """Folders of tables that the program loads, which are removed at the end."""

    def __init__(self, program):
        self.program = program
        self.made = []

    def load(self, schema, script):
        folder = tempfile.mkdtemp(prefix="formats-")
        self.made.append(folder)
        text, status = run(self.program, ["load", "--schema", schema], folder, script)
        if status:
            sys.exit(f"load of a table of {schema}: {text}")
        return folder

    def remove(self):
        for folder in self.made:
            shutil.rmtree(folder)


# ---- the document


def numbers(line):
    """The bytes at the front of a line: pairs of digits, and `00 .. 04` for a number in eight bytes that ends in the digits up to the next two spaces."""
    found = b""
    for part in re.split(r"  +", line.strip()):
        words = part.split(" ")
        if not all(re.fullmatch(r"[0-9A-F]{2}|\.\.", word) for word in words):
            break
        if ".." in words:
            found += bytes(int(word, 16) for word in words[words.index("..") + 1 :]).rjust(8, b"\0")
        else:
            found += bytes(int(word, 16) for word in words)
    return found


class Shown:
    """Bytes of the document: the number of their line, and the words of the comment above them."""

    def __init__(self, number, words):
        self.number = number
        self.words = words
        self.bytes = b""


def shown():
    found, current = [], None
    for number, line in enumerate(open(PAGE_TEXT, encoding="utf-8"), 1):
        mark = re.search(r"<!-- (table|image) (\d+), (?:([\w.-]+), from (\d+|end)( to end)?|cell (\d+)) -->", line)
        if mark:
            current = Shown(number, mark.groups())
            found.append(current)
        elif line.startswith("    ") and current:
            current.bytes += numbers(line)
        elif re.match(r"\| \d+ \| `", line) and current:
            current.bytes += numbers(line.split("`")[1])
        elif line.strip() and line[0] not in " |":
            current = None
    return found


def differs(number, what, expected, found):
    return f"docs/FORMATS.md:{number}: {what}\n  expected {expected}\n  is       {found}"


# ---- tables and their files


def check_tables(folders, blocks):
    made = [folders.load(*table) for table in TABLES]
    for block in blocks:
        _, table, name, place, to_end, _ = block.words
        with open(os.path.join(made[int(table)], name), "rb") as file:
            data = file.read()
        count = len(block.bytes)
        at = len(data) - count if place == "end" else int(place)
        if not count or data[at : at + count] != block.bytes or (to_end and at + count != len(data)):
            yield differs(block.number, name, block.bytes.hex(" "), data[at : at + max(count, 32)].hex(" "))
    for number, folder in enumerate(made):
        yield from check_reader(folders.program, folder, f"table {number}")


def check_reader(program, folder, what):
    """The plain reader and the program over the same files: a scan, and a get of each key that it prints, of some tables only of some."""
    files = Files(folder)
    printed = run(program, ["scan"], folder)
    if files.scan() != printed:
        yield f"{what}: scan\n  program {printed!r:.300}\n  reader  {files.scan()!r:.300}"
    keys = keys_of(files)
    for key in list(keys)[:: max(1, len(keys) // 40)]:
        answers = run(program, ["get", key], folder), files.get(*keys[key])
        if answers[0] != answers[1]:
            yield f"{what}: get {key}\n  program {answers[0]!r:.300}\n  reader  {answers[1]!r:.300}"


def keys_of(files):
    """The texts of all keys of Data.db, each with the strings of its partition and its row."""
    files.open()
    found, at, data = {}, 0, files.contents["Data"]
    while at < len(data):
        string, at = files.head(at)
        name = plain_reader.components(files.partition, string)
        value, at = files.static_part(at)
        if value is not None:
            found[name + " static"] = string, None
        row = files.row_at(at)
        while row is not None:
            found[f"{name} {plain_reader.components(files.row, row[0])}"] = string, row[0]
            at = row[2]
            row = files.row_at(at)
        at += 1
    return found


# ---- nodes

# The type that is read and never written.
UNWRITTEN = 15


def size_of(kind, children):
    shape, bits = TYPES[kind]
    if shape == "dense":
        return 3 + ((children[-1][0] - children[0][0] + 1) * bits + 7) // 8
    if shape == "sparse":
        return 2 + len(children) + (len(children) * bits + 7) // 8
    return {"leaf": 1, "short": 1 + (4 + bits) // 8, "single": 2 + bits // 8}[shape]


def holds(kind, children, payload):
    shape, bits = TYPES[kind]
    if shape == "leaf" or not children:
        return shape == "leaf" and not children
    if shape in ("short", "single") and (len(children) > 1 or (shape == "short" and payload)):
        return False
    return all(far < 2**bits for _, far in children) and not (shape == "sparse" and len(children) > 255)


def spelled(children, payload):
    """The bytes of a node in the type that the document's rule chooses."""
    kind = min((kind for kind in range(15) if holds(kind, children, payload)), key=lambda kind: (size_of(kind, children), kind))
    shape, bits = TYPES[kind]
    first = bytes([16 * kind + len(payload)])
    if shape == "short":
        letter, far = children[0]
        return bytes([16 * kind + far // 256, far % 256, letter] if bits == 12 else [16 * kind + far, letter])
    if shape == "leaf":
        return first + payload
    letters, distances = [letter for letter, _ in children], [far for _, far in children]
    if shape == "dense":
        under = dict(children)
        distances = [under.get(letter, 0) for letter in range(letters[0], letters[-1] + 1)]
        front = bytes([letters[0], len(distances) - 1])
    else:
        front = bytes(([] if shape == "single" else [len(letters)]) + letters)
    row = "".join(format(far, f"0{bits}b") for far in distances)
    row += "0" * (-len(row) % 8)
    return first + front + int(row, 2).to_bytes(len(row) // 8, "big") + payload


def check_nodes():
    """The rows of the document's table of nodes, and how many they are."""
    count, wrong = 0, []
    with open(PAGE_TEXT, encoding="utf-8") as file:
        lines = file.read().split("\n")
    # What the row that isn't written itself is written as.
    other = bytes.fromhex(re.search(r"The last one is written in nine bytes, as `([0-9A-F ]+)`", "\n".join(lines))[1])
    for number, line in enumerate(lines, 1):
        row = re.fullmatch(r"\| (\d+) \| ([^|]*(?:at \d+|payload)[^|]*) \| `([0-9A-F ]+)` \|", line)
        if not row:
            continue
        count += 1
        children = [(int(letter, 16), int(far)) for letter, far in re.findall(r"`([0-9A-F]{2})` at (\d+)", row[2])]
        payload = bytes.fromhex((re.findall(r"payload `([0-9A-F ]+)`", row[2]) or [""])[0])
        data, far = bytes.fromhex(row[3]), 2**60
        node = Node(data, far)
        if node.children != children or node.payload != payload or data[0] >> 4 != int(row[1]):
            wrong.append(differs(number, "node", row[2], f"{node.children}, payload {node.payload.hex(' ')}"))
        if int(row[1]) == UNWRITTEN:
            continue
        again = spelled(children, payload)
        if again not in (data, other):
            wrong.append(differs(number, "node", data.hex(" "), again.hex(" ")))
    return count, wrong


# ---- cells


def key_of(program, schema, partition, row):
    """The string of a key, as the program tells it."""
    text = run(program, ["key", "--schema", schema, "--encode", partition])[0]
    if row is not None:
        text += run(program, ["key", "--schema", schema, "--clustering", "--encode", row])[0]
    return bytes.fromhex(text.replace("\n", ""))


def check_images(program, blocks):
    for number, (schema, puts) in enumerate(IMAGES):
        keyed = [(key_of(program, schema, partition, row), value) for partition, row, value in puts]
        image = cells.image_of(keyed)
        for block in blocks:
            if int(block.words[1]) == number and image.cell(int(block.words[5])) != block.bytes:
                yield differs(block.number, f"cell {block.words[5]}", block.bytes.hex(" "), image.cell(int(block.words[5])).hex(" "))
        lines = [line_of(put) for put in puts]
        for count in range(1, len(puts) + 1):
            yield from check_used(program, schema, lines[:count], cells.image_of(keyed[:count]), f"image {number}")


def line_of(put):
    partition, row, value = put
    return f"put {partition} {row or 'static'} = '{value.decode()}'\n"


# A value that takes more cells than the least N.
LONG = 60000


def check_used(program, schema, lines, image, what):
    """The program takes as many cells for the lines as the image has: behind them a put of a long value just fits in N cells, and not in one less."""
    last = f"put ({'1' if schema != '(text; ; text)' else chr(39) + '1' + chr(39)}) () = '{'x' * LONG}'\n".replace("() =", "() =" if "; ;" in schema else "(2) =")
    partition, row = last[4:].split(" ")[:2]
    room = image.used() + cells.cost(key_of(program, schema, partition, row), b"x" * LONG)
    for count, wanted in ((room, 0), (room - 1, 3)):
        text, status = run(program, ["list", "--schema", schema, "--cells", str(count)], None, "".join(lines) + last)
        if status != wanted:
            yield f"{what}: {len(lines)} puts take {image.used()} cells in the model, and in the program not: {count} cells, status {status}, {text[-80:]!r}"


def check_random_images(program):
    """The cells of random puts of texts, some of which begin others."""
    schema, chance = "(text; ; text)", random.Random(5)
    for rounds in range(6):
        names = ["".join(chance.choices("ab'cdefgh", k=chance.randrange(1, 40 if rounds % 2 else 3))) for _ in range(60)]
        values = [bytes([120]) * chance.randrange(1, 90) for _ in names]
        quoted = ["'%s'" % name.replace("'", "''") for name in names]
        lines = [f"put ({name}) () = '{value.decode()}'\n" for name, value in zip(quoted, values)]
        # The string of a text without zeros is known.
        keyed = [(b"\x40" + name.encode() + b"\0\x38\x38", value) for name, value in zip(names, values)]
        yield from check_used(program, schema, lines, cells.image_of(keyed), f"random image {rounds}")


# ---- tries of larger tables


def generated():
    """Schemas and scripts of tables whose tries have many pages and nodes of many kinds."""
    chance = random.Random(3)
    words = ["".join(chance.choices("abcdexyz", k=chance.randrange(1, 9))) for _ in range(6000)]
    yield "(text; ; text)", "".join(f"put ('{word}') () = 'v{i}'\n" for i, word in enumerate(words))
    yield "(bigint; bigint; text)", "".join(
        f"put ({chance.randrange(3)}) ({chance.getrandbits(chance.randrange(1, 62))}) = '{'x' * chance.randrange(1, 900)}'\n" for _ in range(4000)
    )
    yield "(int; text; blob)", "".join(f"put ({i % 2}) ('{'k' * (i % 700)}{i}') = 0x{'ab' * 800}\n" for i in range(1500))
    yield "(int; int; text; text)", "".join(f"put ({i % 300}) {'static' if i % 7 == 0 else f'({i})'} = '{i}'\n" for i in range(3000))


class Trie:
    """A trie in a file, walked whole: its nodes by their places, and its paths with their payloads."""

    def __init__(self, files, part, root):
        self.nodes, self.paths = {}, []
        todo = [(root, b"")]
        while todo:
            at, path = todo.pop()
            node = files.node(part, at)
            self.nodes[at] = node
            if node.payload:
                self.paths.append((path, node.payload))
            todo += [(at - far, path + bytes([letter])) for letter, far in node.children]
        self.paths.sort()

    def check(self, data, start, end, what):
        """Each node stands as it is spelled and in one page, and zeros are all that is between `start` and `end`."""
        at = start
        for place in sorted(self.nodes):
            node = self.nodes[place]
            text = spelled(node.children, node.payload)
            if data[place : place + len(text)] != text:
                yield f"{what} at {place}: {data[place:place + len(text)].hex(' ')} is spelled as {text.hex(' ')}"
            if place // PAGE != (place + len(text) - 1) // PAGE:
                yield f"{what} at {place}: the node crosses a page"
            if data[at:place].strip(b"\0") or (at < place and place % PAGE):
                yield f"{what} at {at}: there is something that is no gap before {place}"
            at = place + len(text)
        if at != end:
            yield f"{what} at {at}: the trie doesn't end at {end}"


def listing(files):
    """Of each partition of Data.db its string, its place and its blocks: the string before each but the first, its first string and its offset."""
    at, data = 0, files.contents["Data"]
    while at < len(data):
        start = at
        string, at = files.head(at)
        at = files.static_part(at)[1]
        blocks, begin, last = [], start, None
        while True:
            row = files.row_at(at)
            if row is None:
                at += 1
                break
            if at - begin >= plain_reader.BLOCK and last is not None:
                blocks.append((last, row[0], at - start))
                begin = at
            last, at = row[0], row[2]
        yield string, start, blocks


def shared(one, other):
    """How many bytes two strings have in common at their front."""
    return len(os.path.commonprefix([one, other]))


def payload_of(number, signed):
    count = 1
    while not (-(2 ** (8 * count - 1)) <= number < 2 ** (8 * count - 1) if signed else number < 2 ** (8 * count)):
        count += 1
    return number.to_bytes(count, "big", signed=signed)


def check_tries(folder, what, seen):
    """Both indexes of a table, against what its Data.db lists."""
    files = Files(folder)
    files.open()
    count, root = files.footer()
    rows, end, prefixes = files.contents["Rows"], 0, []
    partitions = list(listing(files))
    for i, (string, start, blocks) in enumerate(partitions):
        number = -1 - start
        if blocks:
            number = end = yield from check_blocks(files, what, end, string, start, blocks, seen)
            end += 2 + len(string) + 20
        near = [shared(string, partitions[j][0]) for j in (i - 1, i + 1) if 0 <= j < len(partitions)]
        prefixes.append((string[: max(near, default=0) + 1], payload_of(number, True)))
    if end != len(rows):
        yield f"{what}: Rows.db has {len(rows)} bytes, and its partitions {end}"
    trie = Trie(files, "Partitions", root)
    strings_at = int.from_bytes(files.contents["Partitions"][-24:-16], "big")
    yield from trie.check(files.contents["Partitions"], 0, strings_at, f"{what}, Partitions.db")
    if trie.paths != sorted(prefixes) or count != len(partitions):
        yield f"{what}: the paths of Partitions.db aren't the shortest unique prefixes"
    seen.update(files.contents["Partitions"][at] >> 4 for at in trie.nodes)


def check_blocks(files, what, start, string, place, blocks, seen):
    """The trie and the entry of a partition that begin at a place of Rows.db; gives the entry's place."""
    rows = files.contents["Rows"]
    wanted = [(first[: shared(before, first) + 1], payload_of(offset, False)) for before, first, offset in blocks]
    tail = len(string).to_bytes(2, "big") + string + place.to_bytes(8, "big")
    at = rows.find(tail, start)
    position, root = files.entry(at)
    trie = Trie(files, "Rows", root)
    yield from trie.check(rows, start, at, f"{what}, Rows.db")
    if trie.paths != sorted(wanted) or position != place or rows[at + len(tail) + 8 :][:4] != (len(blocks) + 1).to_bytes(4, "big"):
        yield f"{what}: the entry at {at} isn't that of {string.hex(' ')}"
    seen.update(rows[at] >> 4 for at in trie.nodes)
    return at


def check_generated(folders):
    seen, wrong = set(), []
    for number, (schema, script) in enumerate(generated()):
        folder = folders.load(schema, script)
        wrong += check_tries(folder, f"generated {number}", seen)
        wrong += check_reader(folders.program, folder, f"generated {number}")
    return number + 1, wrong, seen


def main():
    if len(sys.argv) != 2:
        sys.exit(__doc__)
    folders = Folders(os.path.abspath(sys.argv[1]))
    blocks = shown()
    files = [block for block in blocks if block.words[0] == "table"]
    images = [block for block in blocks if block.words[0] == "image"]
    try:
        nodes, wrong = check_nodes()
        wrong += check_tables(folders, files)
        wrong += check_images(folders.program, images)
        wrong += check_random_images(folders.program)
        tables, more, seen = check_generated(folders)
    finally:
        folders.remove()
    wrong += more
    for text in wrong:
        print(text)
    types = ", ".join(map(str, sorted(seen)))
    print(f"{len(files)} pieces of files, {nodes} nodes, {len(images)} cells, {tables} tables with nodes of the types {types}: {len(wrong)} wrong")
    sys.exit(1 if wrong else 0)


if __name__ == "__main__":
    main()
