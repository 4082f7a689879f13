"""The tables that comparisons load: their schemas, random keys, scripts of puts, and the same in sqlite3."""
import os
import random
import string

# Another number is for a try.
LINES = int(os.environ.get("BENCH_LINES", "500000"))
# Cells enough for all of them in one shard.
CELLS = 4_194_304


class Numbers:
    """One int names a partition of one row."""

    schema = "(int; ; text)"
    # How a key is written in a line, for the columns of a row of sqlite3 but the last.
    key = "(%s) ()"
    table = "create table rows (key integer primary key on conflict replace, value text) without rowid"
    order = "key"
    where = "key = %d"

    def random_key(self):
        return (random.randrange(-1_200_000, 1_200_000),)


class Types:
    """A short text and an int name a partition of about ten rows, and a bigint of any length a row in it; the greatest is first."""

    schema = "(text, int; bigint reversed; text)"
    key = "('%s', %s) (%s)"
    table = (
        "create table rows (name text, number integer, place integer, value text,"
        " primary key (name, number, place desc) on conflict replace) without rowid"
    )
    order = "name, number, place desc"
    where = "name = '%s' and number = %d and place = %d"

    def __init__(self):
        random.seed(7)
        self.names = ["".join(random.choices(string.ascii_lowercase, k=random.randrange(1, 9))) for _ in range(2_000)]

    def random_key(self):
        place = random.getrandbits(random.randrange(1, 63)) * random.choice((1, -1))
        return random.choice(self.names), random.randrange(-12, 13), place


class Wide:
    """One of twenty ints names a partition of some ten thousand rows, which is of many blocks, and a bigint of any length a row in it."""

    schema = "(int; bigint; text)"
    key = "(%s) (%s)"
    table = (
        "create table rows (number integer, place integer, value text, primary key (number, place) on conflict replace) without rowid"
    )
    order = "number, place"
    where = "number = %d and place = %d"

    def random_key(self):
        place = random.getrandbits(random.randrange(1, 63)) * random.choice((1, -1))
        return random.randrange(20), place


def write_puts(keys, script, csv):
    """The puts as a script, and as rows of the key's columns and a text."""
    random.seed(7)
    with open(script, "w", encoding="ascii") as lines, open(csv, "w", encoding="ascii") as rows:
        for _ in range(LINES):
            key = keys.random_key()
            value = "value %08x" % random.getrandbits(32)
            lines.write("put %s = '%s'\n" % (keys.key % key, value))
            rows.write("%s,%s\n" % (",".join(map(str, key)), value))


def sqlite_calls(keys, csv, cache):
    """The calls of sqlite3 that import the rows and print them in order, without a journal and without waiting for the disk."""
    pragmas = ["pragma journal_mode=off", "pragma synchronous=off"] + cache
    load = ["sqlite3", "table.db"] + pragmas + [keys.table, ".mode csv", ".import %s rows" % csv]
    return {"load": load, "scan": ["sqlite3", "table.db", "select * from rows order by " + keys.order]}
