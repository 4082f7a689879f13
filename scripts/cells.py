"""A plain model of a shard in memory, after docs/FORMATS.md: puts of keys and values into cells of 32 bytes.

scripts/formats.py shows its cells beside those of the document, and compares how many cells it takes with how many the program takes.
"""
CELL = 32
CHAIN = 28
SPLIT, SPARSE, PREFIX = 0x1C, 0x1E, 0x1F
CONTENT = 2**31


def cells_of(count, size):
    return -(-count // size)


def cost(key, value):
    """How many cells have to be left for a put."""
    return cells_of(8 + len(value), CELL) + cells_of(len(key), CHAIN) + 16


class Image:
    def __init__(self):
        self.bytes = bytearray(CELL)
        self.puts = 0

    def used(self):
        return len(self.bytes) // CELL

    def cell(self, number):
        return bytes(self.bytes[CELL * number : CELL * (number + 1)])

    def number(self, at, size=4):
        return int.from_bytes(self.bytes[at : at + size], "little")

    def store(self, at, number, size=4):
        self.bytes[at : at + size] = number.to_bytes(size, "little")

    def take(self, filled):
        """Takes the cells that these bytes fill, and gives the first one's number."""
        first = self.used()
        self.bytes += filled + bytes(-len(filled) % CELL)
        return first

    def put(self, key, value):
        self.puts += 1
        record = self.take(self.puts.to_bytes(4, "little") + len(value).to_bytes(4, "little") + value)
        # The complement of the number of its first cell.
        self.meet(key, 2**32 - 1 - record)
        self.store(0, self.puts, 8)

    def chain(self, rest, end):
        """The pointer to cells that lead over some bytes to a pointer."""
        first, count = self.used(), cells_of(len(rest), CHAIN)
        for i in range(count):
            stop = len(rest) - CHAIN * (count - 1 - i)
            piece = rest[max(0, stop - CHAIN) : stop]
            tail = end if i == count - 1 else CELL * (first + i + 1)
            self.take(piece.rjust(CHAIN, b"\0") + tail.to_bytes(4, "little"))
        return CELL * first + CHAIN * count - len(rest) if rest else end

    # -- the walk

    def meet(self, key, record):
        """Walks a key to where it leaves the trie, and makes there what the put takes. `at` is where the pointer stands that led to a node."""
        at, taken = 8, 0
        while True:
            pointer = self.number(at)
            kind, here = pointer % CELL, pointer - pointer % CELL
            if pointer == 0:
                return self.store(at, self.chain(key[taken:], record))
            if kind == PREFIX and pointer < CONTENT:
                if taken == len(key):
                    return self.store(here, record)
                at = here + 4
            elif taken == len(key):
                old = pointer
                return self.store(at, record if old >= CONTENT else self.prefix(record, old))
            elif pointer >= CONTENT:
                child = self.chain(key[taken:], record)
                return self.store(at, self.prefix(pointer, child))
            elif kind < CHAIN:
                passed = self.passed(pointer, key, taken)
                if kind + passed < CHAIN:
                    return self.leave_chain(at, pointer, passed, key, taken + passed, record)
                at, taken = here + CHAIN, taken + passed
            else:
                slot = self.slot(here, kind, key[taken])
                if slot is None:
                    return self.add_child(at, here, kind, key, taken, record)
                at, taken = slot, taken + 1

    def passed(self, pointer, key, taken):
        """How many bytes of a chain cell, from the pointer's on, are the key's."""
        left = self.bytes[pointer : pointer - pointer % CELL + CHAIN]
        count = 0
        while count < len(left) and taken + count < len(key) and left[count] == key[taken + count]:
            count += 1
        return count

    def prefix(self, content, child):
        cell = self.take(content.to_bytes(4, "little") + child.to_bytes(4, "little") + bytes(24))
        return CELL * cell + PREFIX

    def leave_chain(self, at, pointer, passed, key, taken, record):
        """The key ends in a chain cell or has another byte there."""
        old = pointer + passed
        if taken == len(key):
            made = self.prefix(record, old)
        else:
            child = self.chain(key[taken + 1 :], record)
            tail = old + 1 if old % CELL + 1 < CHAIN else self.number(old + 1)
            made = self.sparse({self.bytes[old]: tail, key[taken]: child})
        if passed:
            made = self.chain(bytes(self.bytes[pointer:old]), made)
        self.store(at, made)

    # -- nodes with several children

    def sparse(self, children):
        """A new cell of two children, the lesser byte in slot 0."""
        low, high = sorted(children)
        cell = children[low].to_bytes(4, "little") + children[high].to_bytes(4, "little") + bytes(16) + bytes([low, high, 0, 0, 0, 0, 6, 0])
        return CELL * self.take(cell) + SPARSE

    def order(self, here):
        """The slots of a sparse cell by ascending bytes."""
        left, slots = self.number(here + 30, 2), []
        while left:
            slots.append(left % 6)
            left //= 6
        return slots

    def slot(self, here, kind, byte):
        """The place of the pointer under a byte, or None."""
        if kind == SPARSE:
            found = [slot for slot in self.order(here) if self.bytes[here + 24 + slot] == byte]
            return here + 4 * found[0] if found else None
        for part, size in ((byte >> 6, 4), (byte >> 3 & 7, 8), (byte & 7, 8)):
            at = here + 4 * part
            pointer = self.number(at)
            if pointer == 0:
                return None
            here = pointer - pointer % CELL
        return at

    def add_child(self, at, here, kind, key, taken, record):
        child = self.chain(key[taken + 1 :], record)
        if kind == SPLIT:
            return self.add_split(here, key[taken], child)
        slots = self.order(here)
        if len(slots) == 6:
            children = {self.bytes[here + 24 + slot]: self.number(here + 4 * slot) for slot in slots}
            return self.store(at, self.split({**children, key[taken]: child}))
        free = len(slots)
        slots = sorted(slots + [free], key=lambda slot: key[taken] if slot == free else self.bytes[here + 24 + slot])
        self.store(here + 4 * free, child)
        self.bytes[here + 24 + free] = key[taken]
        self.store(here + 30, sum(slot * 6**i for i, slot in enumerate(slots)), 2)

    def split(self, children):
        """A node of three levels of cells, with a top cell, and the cells of each level by ascending bits."""
        top = self.take(bytes(CELL))
        mids = {high: self.take(bytes(CELL)) for high in sorted({byte >> 6 for byte in children})}
        leaves = {high: self.take(bytes(CELL)) for high in sorted({byte >> 3 for byte in children})}
        for high, cell in mids.items():
            self.store(CELL * top + 4 * high, CELL * cell + SPLIT)
        for high, cell in leaves.items():
            self.store(CELL * mids[high >> 3] + 4 * (high & 7), CELL * cell + SPLIT)
        for byte, pointer in children.items():
            self.store(CELL * leaves[byte >> 3] + 4 * (byte & 7), pointer)
        return CELL * top + SPLIT

    def add_split(self, here, byte, child):
        """Adds a child, with the mid and the leaf cell that are missing."""
        for part in (byte >> 6, byte >> 3 & 7):
            at = here + 4 * part
            if self.number(at) == 0:
                self.store(at, CELL * self.take(bytes(CELL)) + SPLIT)
            here = self.number(at) - SPLIT
        self.store(here + 4 * (byte & 7), child)


def image_of(puts):
    image = Image()
    for key, value in puts:
        image.put(key, value)
    return image
