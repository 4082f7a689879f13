"""A plain reader of the four files of a table, written after docs/FORMATS.md and without a look at the program's code.

It answers what `get` and `scan` of the program are to print over any bytes, damage with its place and cause, so that scripts/formats.py and
scripts/damage.py can compare the two. Files are read whole, and nothing is kept between two answers.
"""
import os
import re

PAGE = 4096
BLOCK = 16384
LONGEST_STRING = 1024
LONGEST_VALUE = 65535
# From here on nothing stands, whatever a file has.
FAR = 2**62


class Damaged(Exception):
    """At a place of a file something doesn't stand that was asked for."""

    def __init__(self, part, at, cause):
        super().__init__(f"error: damaged {part} at {at}: {cause}")


class Unfinished(Exception):
    """Schema.txt isn't there or isn't whole."""


# ---- schemas


def canonical(text):
    """The partition's types, the row's, the value's type and the static one, of a canonical text of a schema; None of any other text."""
    words = re.findall(r"[a-z]+|[<>,;()]", text)
    try:
        if words.pop(0) != "(":
            return None
        lists = [types_of(words, ";"), types_of(words, ";"), types_of(words, ";)")]
        lists.append(types_of(words, ")") if words else [])
    except (IndexError, ValueError):
        return None
    names = [kind[0] for part in lists[2:] for kind in part]
    small = 1 <= len(lists[0]) <= 8 and len(lists[1]) <= 8 and len(lists[2]) == 1 and len(lists[3]) <= 1
    plain = all(name in ("text", "blob") for name in names)
    if words or not small or not plain or not all(fits(kind, 0) for part in lists[:2] for kind in part) or schema_text(lists) != text:
        return None
    return lists


def types_of(words, ends):
    found = []
    while True:
        word = words.pop(0)
        if word in ends:
            return found
        if word == "reversed":
            found.append(("reversed", found.pop()))
        elif word == "tuple":
            if words.pop(0) != "<":
                raise ValueError(word)
            found.append(("tuple", types_of(words, ">")))
        elif word in ("tinyint", "smallint", "int", "bigint", "text", "blob", "boolean"):
            found.append((word, None))
        elif word != ",":
            raise ValueError(word)


def fits(kind, depth):
    name, inner = kind
    if name == "reversed":
        return inner[0] != "reversed" and fits(inner, depth)
    if name == "tuple":
        return depth < 4 and 1 <= len(inner) <= 8 and all(fits(each, depth + 1) for each in inner)
    return True


def type_text(kind):
    name, inner = kind
    if name == "reversed":
        return type_text(inner) + " reversed"
    if name == "tuple":
        return "tuple<%s>" % ", ".join(map(type_text, inner))
    return name


def schema_text(lists):
    """The canonical text of lists of types."""
    partition, row, value, static = [", ".join(map(type_text, kinds)) for kinds in lists]
    return f"({partition}; {row}; {value}" + (f"; {static})" if static else ")")


# ---- strings of keys: each reading takes the bytes and a place, and gives the text of what stands there and the place behind it


class Unsound(Exception):
    pass


def need(whether):
    if not whether:
        raise Unsound()


def complement(string):
    return bytes(255 - byte for byte in string)


def bigint_at(string, at):
    need(at < len(string))
    if string[at] < 0x80:
        number, end = bigint_at(complement(string), at)
        return -1 - number, end
    count = 8 - (255 - string[at]).bit_length()
    if count == 8:
        need(at + 1 < len(string))
        count += string[at + 1] >> 7
    need(at + count <= len(string))
    number = int.from_bytes(string[at : at + count], "big") % 2 ** (63 if count == 9 else 7 * count - 1)
    least = 0 if count == 1 else 2 ** (7 * (count - 1) - 1)
    need(number >= least)
    return number, at + count


def bytes_at(string, at):
    value = bytearray()
    while True:
        need(at < len(string))
        byte = string[at]
        at += 1
        if byte:
            value.append(byte)
            continue
        zeros = 0
        while at < len(string) and string[at] == 0xFE:
            zeros, at = zeros + 1, at + 1
        if at < len(string) and string[at] == 0xFF:
            value += bytes(zeros + 1)
            at += 1
            need(at < len(string) and string[at] != 0)
        else:
            return bytes(value + bytes(zeros)), at


def literal(name, value):
    if name == "blob":
        return "0x" + value.hex()
    return "'%s'" % value.decode("utf-8").replace("'", "''")


def component_at(kind, string, at):
    name, inner = kind
    if name == "reversed":
        return component_at(inner, complement(string), at)
    if name == "tuple":
        return components_at(inner, string, at)
    if name == "bigint":
        number, at = bigint_at(string, at)
        return str(number), at
    if name in ("text", "blob"):
        value, at = bytes_at(string, at)
        need(name == "blob" or is_text(value))
        return literal(name, value), at
    size = {"boolean": 1, "tinyint": 1, "smallint": 2, "int": 4}[name]
    need(at + size <= len(string))
    number = int.from_bytes(string[at : at + size], "big")
    if name == "boolean":
        need(number < 2)
        return ["false", "true"][number], at + 1
    return str(number - 2 ** (8 * size - 1)), at + size


def components_at(kinds, string, at):
    texts = []
    for kind in kinds:
        need(at < len(string) and string[at] == 0x40)
        text, at = component_at(kind, string, at + 1)
        texts.append(text)
    need(at < len(string) and string[at] == 0x38)
    return "(%s)" % ", ".join(texts), at + 1


def is_text(value):
    try:
        value.decode("utf-8")
        return True
    except UnicodeDecodeError:
        return False


def components(kinds, string):
    """The text of the list of components of a whole string; None where it isn't sound."""
    try:
        text, end = components_at(kinds, string, 0)
        return text if end == len(string) and end <= LONGEST_STRING else None
    except Unsound:
        return None


# ---- nodes

# How the distances stand, and of how many bits each is, by the type's number.
TYPES = [
    ("leaf", 0),
    ("short", 4),
    ("single", 8),
    ("short", 12),
    ("single", 16),
    ("sparse", 8),
    ("sparse", 12),
    ("sparse", 16),
    ("sparse", 24),
    ("sparse", 40),
    ("dense", 12),
    ("dense", 16),
    ("dense", 24),
    ("dense", 32),
    ("dense", 40),
    ("dense", 64),
]


class Node:
    """The node that begins at a place of a page: its children as pairs of a byte and a distance, and its payload. Raises what stands against it."""

    def __init__(self, page, at):
        self.bytes = page[at % PAGE :]
        if not self.bytes:
            raise ValueError("past page")
        self.shape, self.bits = TYPES[self.bytes[0] >> 4]
        self.low = self.bytes[0] & 15
        self.count = self.places()
        front = self.front()
        size = front + (self.count * self.bits + 7) // 8
        if self.shape == "short":
            size = 1 + (4 + self.bits) // 8
        self.payload_size = 0 if self.shape == "short" or self.low > 7 else self.low
        if len(self.bytes) < size + self.payload_size:
            raise ValueError("past page")
        letters, distances = self.letters(), self.distances(front, size)
        self.refuse(letters, distances, at)
        self.children = [(letter, far) for letter, far in zip(letters, distances) if far]
        self.payload = self.bytes[size : size + self.payload_size]

    def places(self):
        byte = lambda at: self.bytes[at] if at < len(self.bytes) else 0
        return {"leaf": 0, "short": 1, "single": 1, "sparse": byte(1), "dense": byte(2) + 1}[self.shape]

    def front(self):
        """How many bytes stand before the distances."""
        return {"leaf": 1, "short": 0, "single": 2, "sparse": 2 + self.count, "dense": 3}[self.shape]

    def letters(self):
        if self.shape == "sparse":
            return list(self.bytes[2 : 2 + self.count])
        if self.shape == "dense":
            return list(range(self.bytes[1], self.bytes[1] + self.count))
        place = {"leaf": 0, "short": (4 + self.bits) // 8, "single": 1}[self.shape]
        return [self.bytes[place]][: self.count]

    def distances(self, front, size):
        number, whole = int.from_bytes(self.bytes[:size], "big"), 8 * size
        skipped = 4 if self.shape == "short" else 8 * front
        return [(number >> (whole - skipped - (i + 1) * self.bits)) % 2**self.bits for i in range(self.count)]

    def refuse(self, letters, distances, at):
        if self.shape == "sparse" and (not letters or any(a >= b for a, b in zip(letters, letters[1:]))):
            raise ValueError("bad order")
        if self.shape == "dense" and letters[-1] > 255:
            raise ValueError("bad order")
        ends = (0, self.count - 1)
        if any(far > at or (far == 0 and (self.shape != "dense" or i in ends)) for i, far in enumerate(distances)):
            raise ValueError("bad pointer")
        if self.shape != "short" and (self.low > 7 or (self.shape == "leaf" and self.low == 0)):
            raise ValueError("bad payload")


# ---- files


class Files:
    """The four files of a folder, or of a dictionary of their bytes by the names of their parts."""

    NAMES = {"Data": "1-Data.db", "Rows": "1-Rows.db", "Partitions": "1-Partitions.db", "Schema": "1-Schema.txt"}

    def __init__(self, folder=None, contents=None):
        self.contents = dict(contents) if contents else {part: self.held(folder, name) for part, name in self.NAMES.items()}

    @staticmethod
    def held(folder, name):
        try:
            with open(os.path.join(folder, name), "rb") as file:
                return file.read()
        except FileNotFoundError:
            return b""

    def with_byte(self, part, at, byte):
        """The same files with one byte changed."""
        changed = bytearray(self.contents[part])
        changed[at] = byte
        return Files(contents={**self.contents, part: bytes(changed)})

    def open(self):
        """Takes the schema of Schema.txt."""
        whole = self.contents["Schema"]
        match = re.fullmatch(rb"bti-table ([12])\n(.*)\nend\n", whole, re.S)
        if not match or len(match[2]) > 4000 or not match[2].isascii():
            raise Unfinished()
        lists = canonical(match[2].decode("ascii"))
        if lists is None or (match[1] == b"2") != bool(lists[3]):
            raise Unfinished()
        self.partition, self.row, (self.value,), self.static = lists

    def counted(self, part, at):
        """The bytes behind a length in two bytes, and the place behind them; None where the file ends first."""
        data = self.contents[part]
        if at + 2 > len(data):
            return None
        end = at + 2 + int.from_bytes(data[at : at + 2], "big")
        return (data[at + 2 : end], end) if end <= len(data) else None

    def footer(self):
        """The number of partitions and the root."""
        data = self.contents["Partitions"]
        bad = Damaged("Partitions", len(data) - 24 if len(data) >= 28 else 0, "bad footer")
        if len(data) < 28:
            raise bad
        strings, count, root = [int.from_bytes(data[-24 + 8 * i :][:8], "big") for i in range(3)]
        first = self.counted("Partitions", strings)
        last = self.counted("Partitions", first[1]) if first else None
        if not last or last[1] != len(data) - 24:
            raise bad
        if count == 0:
            if root or strings or first[0] or last[0]:
                raise bad
        elif not 0 < root < strings or any(components(self.partition, each) is None for each in (first[0], last[0])):
            raise bad
        return count, root

    # -- tries

    def node(self, part, at):
        start = at - at % PAGE
        try:
            return Node(self.contents[part][start : start + PAGE], at)
        except ValueError as e:
            raise Damaged(part, at, str(e)) from None

    def exact(self, root, key):
        """The number at the first payload on the way of a key in Partitions.db, or None."""
        at, rest = root, key
        while True:
            node = self.node("Partitions", at)
            if node.payload:
                return int.from_bytes(node.payload, "big", signed=True)
            far = dict(node.children).get(rest[0]) if rest else None
            if far is None:
                return None
            at, rest = at - far, rest[1:]

    def floor(self, root, key):
        """The number at the greatest path of a trie in Rows.db that isn't above a key, or None."""
        at, rest, spare = root, key, None
        while True:
            node = self.node("Rows", at)
            own = int.from_bytes(node.payload, "big") if node.payload else None
            if not rest:
                return own if own is not None else self.spared(spare)
            below = [far for letter, far in node.children if letter < rest[0]]
            if below:
                spare = ("from", at - below[-1])
            elif own is not None:
                spare = ("own", own)
            far = dict(node.children).get(rest[0])
            if far is None:
                return self.spared(spare)
            at, rest = at - far, rest[1:]

    def spared(self, spare):
        if spare is None or spare[0] == "own":
            return spare and spare[1]
        at = spare[1]
        while True:
            node = self.node("Rows", at)
            if not node.children:
                return int.from_bytes(node.payload, "big")
            at -= node.children[-1][1]

    # -- Data.db

    def head(self, at):
        """The partition's string at a head, and the place behind it."""
        found = self.counted("Data", at) if at < FAR else None
        if not found or components(self.partition, found[0]) is None:
            raise Damaged("Data", at, "bad head")
        return found

    def value_at(self, at, kind):
        found = self.counted("Data", at)
        if not found or (kind[0] == "text" and not is_text(found[0])):
            return None
        return found

    def static_part(self, at):
        """The static value behind a head or None, and the place behind it."""
        if not self.static:
            return None, at
        first = self.contents["Data"][at : at + 1]
        found = self.value_at(at + 1, self.static[0]) if first == b"\1" else None
        if first == b"\0":
            return None, at + 1
        if not found:
            raise Damaged("Data", at, "bad row")
        return found

    def row_at(self, at):
        """The string of a row, its value and the place behind it; None at an end of a partition."""
        first = self.contents["Data"][at : at + 1] if at < FAR else b""
        if first == b"\0":
            return None
        string = self.counted("Data", at + 1) if first == b"\1" else None
        value = self.value_at(string[1], self.value) if string else None
        if not value or components(self.row, string[0]) is None:
            raise Damaged("Data", at, "bad row")
        return string[0], value[0], value[1]

    # -- answers

    def entry(self, at):
        """The position in Data.db and the root of an entry of Rows.db."""
        data, found = self.contents["Rows"], self.counted("Rows", at)
        bad = Damaged("Rows", at, "bad entry")
        if not found or found[1] + 20 > len(data) or components(self.partition, found[0]) is None:
            raise bad
        position, root = [int.from_bytes(data[found[1] + 8 * i :][:8], "big") for i in range(2)]
        if root >= at or int.from_bytes(data[found[1] + 16 :][:4], "big") < 2:
            raise bad
        return position, root

    def find(self, partition, row):
        """The value of a row by the strings of its key, or of the static value where there is no string of a row, or None."""
        count, root = self.footer()
        number = self.exact(root, partition) if count else None
        if number is None:
            return None
        head, trie = (-1 - number, None) if number < 0 else self.entry(number)
        string, behind = self.head(head)
        if string != partition:
            return None
        if row is None:
            return self.static_part(behind)[0]
        offset = None if trie is None else self.floor(trie, row)
        if offset is None:
            at, limit = self.static_part(behind)[1], head + BLOCK
        else:
            at, limit = head + offset, head + offset + BLOCK
        return self.row_in_block(at, limit, row)

    def row_in_block(self, at, limit, row):
        while True:
            found = self.row_at(at)
            if found is None or found[0] > row:
                return None
            string, value, at = found
            if string == row:
                return value
            if at >= limit:
                return None

    def entries(self):
        """The lines of all rows and static values in the order of Data.db, each with whether it is a row's."""
        at, data = 0, self.contents["Data"]
        while at < len(data):
            string, behind = self.head(at)
            key = components(self.partition, string)
            value, at = self.static_part(behind)
            if value is not None:
                yield f"{key} static = {literal(self.static[0][0], value)}\n", False
            while True:
                found = self.row_at(at)
                if found is None:
                    at += 1
                    break
                string, value, at = found
                yield f"{key} {components(self.row, string)} = {literal(self.value[0], value)}\n", True

    # -- what the program prints

    def get(self, partition, row):
        """What `get` prints of a key, by its strings, and its status."""
        try:
            self.open()
            value = self.find(partition, row)
        except (Damaged, Unfinished) as e:
            return stopped(e)
        kind = self.value if row is not None else self.static[0]
        return ("none" if value is None else literal(kind[0], value)) + "\n", 0

    def scan(self):
        """What `scan` prints, and its status."""
        lines, rows = [], 0
        try:
            self.open()
            self.footer()
            for line, is_row in self.entries():
                lines.append(line)
                rows += is_row
        except (Damaged, Unfinished) as e:
            text, status = stopped(e)
            return "".join(lines) + text, status
        return "".join(lines) + f"rows {rows}\n", 0


def stopped(e):
    """The line and the status of what ended an answer."""
    return (f"{e}\n", 7) if isinstance(e, Damaged) else ("error: unfinished\n", 8)
