"""A plain checker of the four files of a table, written after docs/FORMATS.md and docs/COMMANDS.md and without a look at the program's code.

It answers what `check` of the program is to print over any bytes, so that scripts/damage.py can compare the two. It stands on the plain reader; files are
read whole, and nothing is kept between two answers.
"""
from plain_reader import BLOCK, Damaged, Unfinished, literal, stopped

UNSOUND = 11


class Unsound(Exception):
    """At a place of a file something else stands than Data.db gives."""

    def __init__(self, part, at, what):
        super().__init__(f"error: unsound {part} at {at}: {what}\n")


class Partition:
    """A partition of Data.db: its string, the place of its head, how many rows it has, and its blocks but the first."""

    def __init__(self, string, head):
        self.string = string
        self.head = head
        self.rows = 0
        self.blocks = []


class Block:
    """A block of a partition: its offset, the string of its first row, and that of the row before it."""

    def __init__(self, offset, first, before):
        self.offset = offset
        self.first = first
        self.before = before


def common(a, b):
    """How many bytes two strings have in common at their beginnings."""
    count = 0
    while count < min(len(a), len(b)) and a[count] == b[count]:
        count += 1
    return count


def need_above(string, before, at):
    if string <= before:
        raise Unsound("Data", at, "order")


def partition_at(files, at, before):
    """The partition whose head stands at a place, and the place behind its end."""
    string, behind = files.head(at)
    need_above(string, before, at)
    found = Partition(string, at)
    static, behind = files.static_part(behind)
    begin, last = at, b""
    while True:
        row = files.row_at(behind)
        if row is None:
            break
        need_above(row[0], last, behind)
        if last and behind - begin >= BLOCK:
            found.blocks.append(Block(behind - at, row[0], last))
            begin = behind
        last, behind = row[0], row[2]
        found.rows += 1
    if static is None and found.rows == 0:
        raise Unsound("Data", at, "order")
    return found, behind + 1


def partitions_of(files):
    """All partitions of Data.db in order."""
    found, at, before = [], 0, b""
    while at < len(files.contents["Data"]):
        partition, at = partition_at(files, at, before)
        before = partition.string
        found.append(partition)
    return found


def footer_place(files):
    size = len(files.contents["Partitions"])
    return size - 24 if size >= 28 else 0


def check_footer(files, partitions):
    """The number of partitions and the root of the footer, whose strings are the first and the last one's."""
    count, root = files.footer()
    data, place = files.contents["Partitions"], footer_place(files)
    strings = int.from_bytes(data[place : place + 8], "big")
    first, behind = files.counted("Partitions", strings)
    last, _ = files.counted("Partitions", behind)
    wanted = (partitions[0].string, partitions[-1].string) if partitions else (b"", b"")
    if (first, last) != wanted:
        raise Unsound("Partitions", place, "key")
    return count, root


def paths_of(files, part, at, path=b""):
    """The paths of the trie at a root, one after the other, each with its node and the payload there."""
    node = files.node(part, at)
    if node.payload:
        yield path, at, node.payload
    for letter, far in node.children:
        yield from paths_of(files, part, at - far, path + bytes([letter]))


class Trie:
    """The paths of a trie that are still to come."""

    def __init__(self, files, part, root):
        self.part = part
        self.root = root
        self.paths = paths_of(files, part, root)

    def given(self):
        """The next path, which is to be there."""
        found = next(self.paths, None)
        if found is None:
            raise Unsound(self.part, self.root, "path")
        return found

    def end(self):
        """Looks whether there is no path more."""
        found = next(self.paths, None)
        if found is not None:
            raise Unsound(self.part, found[1], "path")


def need_number(part, at, found, wanted):
    if found != wanted:
        raise Unsound(part, at, f"number {found} not {wanted}")


def unique_paths(partitions):
    """Of each partition the shortest prefix of its string that neither neighbour has."""
    strings = [b""] + [partition.string for partition in partitions] + [b""]
    for before, string, behind in zip(strings, strings[1:], strings[2:]):
        yield string[: max(common(before, string), common(string, behind)) + 1]


def check_partitions(files, partitions, root):
    trie = Trie(files, "Partitions", root)
    for partition, wanted in zip(partitions, unique_paths(partitions)):
        path, node, payload = trie.given()
        if path != wanted:
            raise Unsound("Partitions", node, "path")
        number = int.from_bytes(payload, "big", signed=True)
        if not partition.blocks:
            need_number("Partitions", node, number, -1 - partition.head)
        elif number < 0:
            need_number("Partitions", node, number, 0)
    trie.end()


def check_blocks(files, partition, root):
    trie = Trie(files, "Rows", root)
    for block in partition.blocks:
        path, node, payload = trie.given()
        if path != block.first[: common(block.before, block.first) + 1]:
            raise Unsound("Rows", node, "path")
        need_number("Rows", node, int.from_bytes(payload, "big"), block.offset)
    trie.end()


def check_entry(files, at, partition):
    """The root of the entry at a place of Rows.db, which is to be the partition's."""
    position, root = files.entry(at)
    string, behind = files.counted("Rows", at)
    if string != partition.string:
        raise Unsound("Rows", at, "key")
    need_number("Rows", at, position, partition.head)
    blocks = int.from_bytes(files.contents["Rows"][behind + 16 : behind + 20], "big")
    need_number("Rows", at, blocks, len(partition.blocks) + 1)
    return root


def check_entries(files, partitions, root):
    trie = Trie(files, "Partitions", root)
    for partition in partitions:
        _, _, payload = trie.given()
        if partition.blocks:
            entry = check_entry(files, int.from_bytes(payload, "big"), partition)
            check_blocks(files, partition, entry)


def checked(files):
    """The line of files that are sound."""
    files.open()
    partitions = partitions_of(files)
    count, root = check_footer(files, partitions)
    if partitions:
        check_partitions(files, partitions, root)
        check_entries(files, partitions, root)
    need_number("Partitions", footer_place(files), count, len(partitions))
    return f"sound partitions {len(partitions)} rows {sum(partition.rows for partition in partitions)}\n"


def check(files):
    """What `check` prints over files, and its status."""
    try:
        return checked(files), 0
    except (Damaged, Unfinished) as e:
        return stopped(e)
    except Unsound as e:
        return str(e), UNSOUND


def value_in(files, partition, row):
    """The value that Data.db lists at a key, by its strings, or None."""
    at = 0
    while at < len(files.contents["Data"]):
        string, behind = files.head(at)
        static, behind = files.static_part(behind)
        if string == partition and row is None:
            return static
        found = files.row_at(behind)
        while found is not None:
            if string == partition and found[0] == row:
                return found[1]
            behind = found[2]
            found = files.row_at(behind)
        at = behind + 1
    return None


def listed(files, partition, row):
    """What `get` is to print of a key over files that are sound, and its status: what Data.db lists alone."""
    value = value_in(files, partition, row)
    kind = files.value if row is not None else files.static[0]
    return ("none" if value is None else literal(kind[0], value)) + "\n", 0
