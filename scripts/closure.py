#!/usr/bin/env python3
"""How many lines a reader has to believe of a promise: the definitions in specs/ that a clause reaches, by name.

    scripts/closure.py [--list] NAME [NAME ..]     NAME is a definition, as table_tool.Run.RunEnds, or a clause of a call, as table_tool:laws.rt:law_headline:reads
    scripts/closure.py --promises                  compares the last column of docs/PROMISES.md
    scripts/closure.py --write                     writes that column

A clause reaches what its text names by the `ghost use` lines of its file, and a definition what its text names by the `use` lines of its own, and what stands beside it. Of a field of a
record that is named with a dot only that field's text counts. Comments and blank lines are left out. It scans text: so the numbers are close, not exact. What std defines isn't counted.
"""
import os
import re
import sys

TOP = os.path.dirname(os.path.dirname(os.path.abspath(__file__)))
PROMISES = os.path.join(TOP, "docs/PROMISES.md")
WORD = re.compile(r"[\w◌>=<+*|&≡-]+(?:\.\w+)?")


class Item:
    """A definition: its crate, its file of specs/ and its name, its text and how many lines of it count."""

    def __init__(self, place, names, lines):
        self.crate, self.module = place
        self.names = names
        self.text = "".join(lines)
        self.lines = sum(1 for line in lines if line.strip() and not line.strip().startswith("--"))

    def add(self, other):
        """Takes a further clause of the same definition."""
        self.text += other.text
        self.lines += other.lines


class Module:
    """A file of specs/: its definitions by their names, and what its `use` lines name: of each word the crate, the file and the name there, or None for a whole file."""

    def __init__(self, path, place):
        self.items = {}
        self.uses = {}
        last = None
        for block in blocks(path):
            head = "".join(block)
            if head.startswith("use "):
                self.uses.update(named(head[4:], r"\s*$"))
                continue
            item = Item(place, names_of(head), block)
            if item.names:
                for name in item.names:
                    self.items[name] = item
                last = item
            elif last is not None and not head.startswith(("infix", "mutual")):
                last.add(item)


def blocks(path):
    """The pieces of a file that begin at the start of a line, comments left out."""
    found = []
    with open(path, encoding="utf-8") as file:
        for line in file:
            if line.startswith("--"):
                continue
            if line[:1].strip():
                found.append([line])
            elif found:
                found[-1].append(line)
    return found


def names_of(text):
    """The names that a block declares; none of a further clause."""
    names = re.findall(r"(?:^|\n)\s*(?:abbrev |unfoldable )?pub (?:record |data )?([^\s:({]+)", text)
    lone = re.match(r"(?:abbrev |unfoldable )(?!mutual)([^\s:({]+)", text)
    return names or ([lone.group(1)] if lone else [])


def named(text, end):
    """What one `use` line names: of each word its crate, file and name."""
    found = {}
    match = re.match(r"Rattle\.(\w+)\.specs\.([\w.]+?)(?:\.\{(.*)\})?(?: as (\w+))?" + end, text.strip(), re.S)
    if match:
        crate, module, names, alias = match.groups()
        for name in re.split(r"\s*,\s*", (names or "").strip()):
            if name:
                found[name.split(" as ")[-1].strip()] = (crate, module, name.split(" as ")[0].strip())
        if alias:
            found[alias + "."] = (crate, module, None)
    return found


class Specs:
    def __init__(self):
        self.modules = {}
        for crate in sorted(os.listdir(os.path.join(TOP, "crates"))):
            top = os.path.join(TOP, "crates", crate, "specs")
            for folder, _, names in os.walk(top):
                for name in names:
                    if name.endswith(".antt"):
                        path = os.path.join(folder, name)
                        module = os.path.relpath(path, top)[:-5].replace(os.sep, ".")
                        self.modules[crate, module] = Module(path, (crate, module))

    def item(self, crate, module, name):
        found = self.modules.get((crate, module))
        return found.items.get(name) if found else None

    def reached(self, text, uses, module=None):
        """The definitions that a text reaches, by the words that are in scope."""
        seen, todo = {}, self.words(text, uses, module)
        while todo:
            item = todo.pop()
            if id(item) not in seen:
                seen[id(item)] = item
                home = self.modules[item.crate, item.module]
                todo += self.words(item.text, home.uses, home)
        return list(seen.values())

    def words(self, text, uses, module):
        found = []
        for word in set(WORD.findall(text)):
            first, _, second = word.partition(".")
            if module and first in module.items:
                found.append(module.items[first])
            if first in uses:
                found.append(self.item(*uses[first]))
            if first + "." in uses and second:
                crate, name, _ = uses[first + "."]
                found.append(self.item(crate, name, second))
        return [item for item in found if item]


# ---- clauses of calls


def trait_files(crate, sources, name):
    """The files with the traits that a type meets, each with the trait."""
    found = []
    for trait in {trait for source in sources for trait in re.findall(rf"\bimpl\b[^{{;]*?\b(\w+) for {name}\b", source.text)}:
        for path in sorted(os.listdir(os.path.join(TOP, "crates", crate, "src"))):
            if path.endswith(".rt"):
                source = Source(crate, path)
                found += [(source, trait)] if re.search(rf"\btrait {trait}\b", source.text) else []
    return found


class Source:
    """A file of src/: its text without comments, and what its `ghost use` lines name."""

    def __init__(self, crate, name):
        with open(os.path.join(TOP, "crates", crate, "src", name), encoding="utf-8") as file:
            self.text = re.sub(r"(?m)^\s*//.*$", "", file.read())
        self.uses = {}
        for use in re.findall(r"ghost use ([^;]*);", self.text):
            self.uses.update(named(re.sub(r"\s+", " ", use), r"$"))

    def contract(self, call):
        """The text between a call's name and its body; of a type or trait that of the whole file."""
        start = re.search(rf"\bfn {call}\b", self.text)
        if not start:
            return self.text if re.search(rf"\b(struct|enum|trait) {call}\b", self.text) else ""
        end = re.compile(r"^ *\{ *$|;\s*$|\{\}? *$", re.M).search(self.text, start.end())
        return self.text[start.end() : end.start() if end else len(self.text)]

    def clauses(self, call):
        """The names and the texts of what a call promises."""
        found, text = [], self.contract(call)
        for match in re.finditer(r"\bensures\*?\s+(\w*)\s*\{", text):
            depth, at = 1, match.end()
            while depth and at < len(text):
                depth += {"{": 1, "}": -1}.get(text[at], 0)
                at += 1
            found.append((match.group(1), text[match.end() : at - 1]))
        return found


def field_of(specs, crate, record, field):
    """The text of a field of a record, how many lines it has, and the file in which it stands."""
    for (home, _), module in specs.modules.items():
        item = module.items.get(record) if home == crate else None
        if item:
            match = re.search(rf"(?ms)^( *)pub {field} :.*?(?=^\1pub |\Z)", item.text)
            if match:
                return match.group(0), sum(1 for line in match.group(0).split("\n") if line.strip() and not line.strip().startswith("--")), module
    return None


def every_field(specs, crate, field):
    """That field of each record of the crate that has it."""
    records = [name for (home, _), module in specs.modules.items() if home == crate for name in module.items]
    return [found for found in (field_of(specs, crate, record, field) for record in records) if found]


class Row:
    """A row of docs/PROMISES.md: what it reaches, as a number of lines and as files of specs/."""

    def __init__(self, specs, crate, cells):
        self.lines = 0
        self.items = {}
        called, _, sources = cells[2].partition("; ")
        files = [Source(crate, name) for name in sources.split(", ")]
        calls = [name.rpartition("::")[2] for name in re.findall(r"`([^`]+)`", called)]
        record = None
        for name in re.findall(r"`([^`]+)`", cells[1]) or [""]:
            if "." in name or record:
                # A field behind another of the same record stands without the record's name.
                record = name.rpartition(".")[0] or record
                self.take(specs, [field_of(specs, crate, record, name.rpartition(".")[2])])
            elif "of each" in cells[1]:
                self.take(specs, every_field(specs, crate, name))
            else:
                self.take_clauses(specs, [(file, call) for file in files for call in calls], name)
                for call in calls if not name else []:
                    self.take_clauses(specs, trait_files(crate, files, call), name)

    def take(self, specs, fields):
        for text, lines, module in (field for field in fields if field):
            self.lines += lines
            for item in specs.reached(text, module.uses, module):
                self.items[id(item)] = item

    def take_clauses(self, specs, calls, wanted):
        """The clauses of this name, all where none is wanted, of calls in their files."""
        for source, call in calls:
            for name, text in source.clauses(call):
                if wanted in ("", name):
                    for item in specs.reached(text, source.uses):
                        self.items[id(item)] = item

    def count(self):
        return self.lines + sum(item.lines for item in self.items.values())


def rows_of_promises(specs):
    """Each line of docs/PROMISES.md, with its cells and its number where it is a row of a promise."""
    crate = None
    with open(PROMISES, encoding="utf-8") as file:
        lines = file.read().split("\n")
    for line in lines:
        head = re.match(r"### `(\w+)`", line)
        crate = head.group(1) if head else crate
        cells = [cell.strip() for cell in line.strip("|").split(" | ")]
        is_row = line.startswith("| ") and not line.startswith("| What is promised") and crate
        yield line, cells, Row(specs, crate, cells).count() if is_row else None


def write(specs):
    out = []
    for line, cells, number in rows_of_promises(specs):
        if line.startswith("| What is promised"):
            line = "| " + " | ".join(cells[:4]) + " | Lines |"
        elif line.startswith("|---|"):
            line = "|---|---|---|---|---|"
        elif number is not None:
            line = "| " + " | ".join(cells[:4]) + f" | {number} |"
        out.append(line)
    with open(PROMISES, "w", encoding="utf-8") as file:
        file.write("\n".join(out))


def check(specs):
    """How many rows there are, and what is said of those whose number is another."""
    count, wrong = 0, []
    for at, (_, cells, number) in enumerate(rows_of_promises(specs), 1):
        if number is not None:
            count += 1
            if cells[4:] != [str(number)]:
                wrong.append(f"docs/PROMISES.md:{at}: {' '.join(cells[4:]) or 'no number'} lines, and there are {number}")
    return count, wrong


def items_of(specs, name):
    """What a definition, or a clause of a call, reaches; None where there is no such."""
    if ":" in name:
        crate, source, call, wanted = (name.split(":") + [""])[:4]
        file = Source(crate, source)
        texts = [text for clause, text in file.clauses(call) if wanted in ("", clause)]
        return specs.reached("\n".join(texts), file.uses) if texts else None
    crate, module, definition = name.split(".", 1)[0], name.split(".", 1)[1].rpartition(".")[0], name.rpartition(".")[2]
    root = specs.item(crate, module, definition)
    return specs.reached(definition, {}, specs.modules[crate, module]) if root else None


def show(name, items, lists):
    modules = {(item.crate, item.module) for item in items}
    print(f"{name}: {len(items)} definitions, {sum(item.lines for item in items)} lines, {len(modules)} files, {len({crate for crate, _ in modules})} crates")
    for item in sorted(items, key=lambda item: (item.crate, item.module, item.names)) if lists else []:
        print(f"  {item.crate}/specs/{item.module.replace('.', '/')}.antt  {', '.join(item.names)}  {item.lines}")


def main():
    words = sys.argv[1:]
    specs = Specs()
    if words == ["--write"]:
        return write(specs)
    if words == ["--promises"]:
        count, wrong = check(specs)
        for text in wrong:
            print(text)
        print(f"{count} promises, {len(wrong)} wrong")
        sys.exit(1 if wrong else 0)
    names = [word for word in words if word != "--list"]
    if not names:
        sys.exit(__doc__)
    for name in names:
        items = items_of(specs, name)
        if items is None:
            sys.exit(f"{name}: there is no such")
        show(name, items, "--list" in words)


if __name__ == "__main__":
    main()
