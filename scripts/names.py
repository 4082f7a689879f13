#!/usr/bin/env python3
"""Looks up the names that README.md and docs/*.md use.

    scripts/names.py

Of what stands in backquotes outside of blocks of code these are looked up, and any other text is left alone:

- a path, which has to be there, from the top or as the end of a file's path;
- a name of one word that isn't a byte in hexadecimal, as `law_order`, `StandFor`, `put()` or `key_types`: a crate, or a word of the code of crates/ or bench/, comments left out;
- a name with a dot, as `LoadEnds.done` or `law_range.keys`: the second is a field or a clause where the first is declared;
- a name with `::`, as `Image::new`: a file of one crate has both.

In docs/DEFINITIONS.md the names of a row stand in the crates whose files it names.
In docs/PROMISES.md each row's calls and clauses stand in the sources of its section's crate, its fourth column names files of that crate's specs/, and each public law has a row. (scripts/closure.py counts the last one.)

Prints a line for each that isn't so, and ends with 1 where there is one.
"""
import os
import re
import subprocess
import sys

TOP = os.path.dirname(os.path.dirname(os.path.abspath(__file__)))
NAME = r"[A-Za-z_]\w*"


def read(path):
    return open(os.path.join(TOP, path), encoding="utf-8", errors="replace").read()


def all_files():
    """The files of the repository: what git has and doesn't ignore, and without git all but what is built."""
    done = subprocess.run(["git", "ls-files", "-co", "--exclude-standard"], cwd=TOP, stdout=subprocess.PIPE, stderr=subprocess.DEVNULL)
    if done.returncode == 0:
        return [path for path in done.stdout.decode().split("\n") if path and os.path.exists(os.path.join(TOP, path))]
    found = []
    for folder, folders, names in os.walk(TOP):
        folders[:] = [name for name in folders if name not in (".git", "out", "build", "__pycache__")]
        found += [os.path.relpath(os.path.join(folder, name), TOP) for name in names]
    return found


def code_of(path):
    """A file without its comments."""
    text = read(path)
    if path.endswith(".antt"):
        return re.sub(r"(?m)^\s*--.*$|\s--\s.*$", "", text)
    if path.endswith((".rt", ".rs")):
        return re.sub(r"(?m)(?<![:\"'])//.*$", "", text)
    if path.endswith(".py"):
        return re.sub(r"(?m)(^|\s)#.*$", "", text)
    return text


class Code:
    def __init__(self):
        self.paths = all_files()
        self.folders = {os.path.dirname(path) for path in self.paths}
        self.texts = {path: code_of(path) for path in self.paths if path.startswith(("crates/", "bench/")) or path == "crates.txt"}
        self.words = {path: set(re.findall(NAME, text)) for path, text in self.texts.items()}
        self.all_words = set().union(*self.words.values())
        self.crates = sorted({path.split("/")[1] for path in self.paths if path.startswith("crates/")})
        # crates of the kit, and names of files and folders, are names too
        self.all_words |= set(re.findall(NAME, read("crates.txt")))
        for path in self.paths:
            self.all_words |= set(re.split(r"[/.]", path))

    def of_crate(self, crate, part=""):
        return [path for path in self.texts if path.startswith(f"crates/{crate}/{part}")]

    def has_path(self, path):
        path = path.rstrip("/")
        return any(p == path or p.endswith("/" + path) for p in self.paths) or any(f == path or f.endswith("/" + path) for f in self.folders)

    def declares(self, path, name):
        return re.search(rf"\b(record|data|struct|enum|trait|abbrev|pub|fn|mod|impl)\b[^\n]*\b{name}\b", self.texts[path]) is not None

    def has_field(self, first, second):
        return any(first in words and second in words and self.declares(path, first) for path, words in self.words.items())

    def has_call(self, first, second):
        """Whether a crate has a call or type of this name, a type such a call, or the code uses it of a crate of the kit."""
        for one in self.crates:
            texts = [self.texts[path] for path in self.of_crate(one, "src/")]
            declared = any(re.search(rf"\b(fn|struct|enum|trait) {second}\b", text) for text in texts)
            if declared and (first == one or any(re.search(rf"\b(impl|struct|enum|trait)\b[^\n]*\b{first}\b", text) for text in texts)):
                return True
        kit = first not in self.crates and first in re.findall(NAME, self.texts["crates.txt"])
        return kit and any(re.search(rf"\b{first}::[^;]*\b{second}\b", text) for text in self.texts.values())


def quoted(text):
    """What stands in backquotes of a document, with the number of its line."""
    fenced = False
    for number, line in enumerate(text.split("\n"), 1):
        if line.startswith("```"):
            fenced = not fenced
        elif not fenced and not line.startswith("    "):
            for name in re.findall(r"`([^`]+)`", line):
                yield number, name


def missing(code, name):
    """Why a name isn't found, or None."""
    name = re.sub(r"\(\)$", "", name)
    if re.fullmatch(r"[0-9A-F]{2}", name):
        return None
    if re.fullmatch(r"[\w./-]+/[\w./-]*|[\w-]+\.(antt|rt|py|script|md|txt)", name):
        if "." in os.path.basename(name) or name.startswith(("crates/", "bench/", "docs/", "examples/", "scripts/")):
            return None if code.has_path(name) or re.fullmatch(r"\d+-.*|Schema\.txt", name) or name.endswith("out/sigvhal") else "no such path"
        return None
    if re.fullmatch(NAME, name):
        return None if name in code.all_words else "no such name"
    if re.fullmatch(rf"{NAME}\.{NAME}", name):
        return None if code.has_field(*name.split(".")) else "no such field or clause"
    if re.fullmatch(rf"{NAME}::{NAME}", name):
        return None if code.has_call(*name.split("::")) else "no such call"
    return None


def documents(code):
    for path in ["README.md"] + sorted(p for p in code.paths if re.fullmatch(r"docs/\w+\.md", p)):
        for number, name in quoted(read(path)):
            why = missing(code, name)
            if why:
                yield f"{path}:{number}: `{name}`: {why}"


# ---- docs/DEFINITIONS.md


def definitions(code):
    """The names of a row that have a capital or an underscore stand in the crates of the row's files."""
    path, crates_of_row = "docs/DEFINITIONS.md", []
    for number, line in enumerate(read(path).split("\n"), 1):
        cells = [cell.strip() for cell in line.strip("| ").split(" | ")]
        if not line.startswith("| ") or len(cells) != 3:
            continue
        if "the same file" not in cells[2]:
            crates_of_row = re.findall(r"crates/(\w+)/specs", cells[2])
        words = set().union(*(code.words[p] for crate in crates_of_row for p in code.of_crate(crate)), set())
        for name in re.findall(rf"`({NAME})`", cells[0]):
            if re.search(r"[A-Z_]", name) and crates_of_row and name not in words:
                yield f"{path}:{number}: `{name}`: not in " + ", ".join(crates_of_row)


# ---- docs/PROMISES.md


def clauses_of(text):
    """The names in backquotes of a row's clause; a name behind a dot is a field, one before a colon a clause."""
    return [re.split(r"\.", name) for name in re.findall(r"`([^`]+)`", text)]


def promises(code):
    path = "docs/PROMISES.md"
    if path not in code.paths:
        return
    crate, laws = None, {}
    for number, line in enumerate(read(path).split("\n"), 1):
        head = re.match(r"### `(\w+)`", line)
        if head:
            crate = head.group(1)
            if crate not in code.crates:
                yield f"{path}:{number}: `{crate}`: no such crate"
        if not line.startswith("| ") or line.startswith("| What is promised"):
            continue
        cells = [cell.strip() for cell in line.strip("|").split(" | ")]
        if len(cells) != 5 or crate is None:
            yield f"{path}:{number}: not a row of five cells in a section of a crate"
            continue
        promise, clause, call, files, _ = cells
        called, _, sources = call.partition("; ")
        sources = [f"crates/{crate}/src/{source}" for source in sources.split(", ")]
        for source in sources:
            if source not in code.paths:
                yield f"{path}:{number}: {source}: no such file"
        kind = ""
        for name in re.findall(r"`([^`]+)`", called):
            first, _, second = name.rpartition("::")
            kind = first or kind
            if not any(re.search(rf"\b(fn|struct|enum|trait) {second}\b", code.texts.get(source, "")) for source in sources):
                yield f"{path}:{number}: `{name}`: no such call in its file"
            if second.startswith("law_"):
                laws.setdefault(crate, set()).add(second)
        specs = code.of_crate(crate, "specs/")
        for name in clauses_of(clause):
            if len(name) == 2:
                found = any(re.search(rf"record {name[0]}\b", code.texts[p]) and re.search(rf"pub {name[1]} :", code.texts[p]) for p in specs)
            else:
                found = any(re.search(rf"ensures\*? {name[0]}\b", code.texts.get(s, "")) for s in sources) or any(
                    re.search(rf"pub {name[0]} :", code.texts[p]) for p in specs)
            if not found:
                yield f"{path}:{number}: `{'.'.join(name)}`: no such clause or field"
        if not files.startswith(("-", "`")):
            for name in files.split(", "):
                if name != "Run*" and f"crates/{crate}/specs/{name}.antt" not in code.paths:
                    yield f"{path}:{number}: {name}: no such file of specs/"
    for one in code.crates:
        for source in code.of_crate(one, "src/"):
            for law in re.findall(r"pub fn (law_\w+)", code.texts[source]):
                if law not in laws.get(one, ()):
                    yield f"{path}: `{law}` of `{one}` has no row"


def main():
    if len(sys.argv) != 1:
        sys.exit(__doc__)
    code = Code()
    wrong = [*documents(code), *definitions(code), *promises(code)]
    for line in wrong:
        print(line)
    print(f"{len(wrong)} wrong")
    sys.exit(1 if wrong else 0)


if __name__ == "__main__":
    main()
