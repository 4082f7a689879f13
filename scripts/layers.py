#!/usr/bin/env python3
"""Compares the layers of docs/ARCHITECTURE.md with those of crates.txt.

    scripts/layers.py

A layer of crates.txt begins with a comment `# N. NAME`. Looked at are these:

- the layers of crates.txt are numbered from 1, each has a crate, and the crates are the folders of crates/;
- a crate uses only crates on lines above its own: so dependencies go down;
- the drawing of docs/ARCHITECTURE.md, its first indented block, has the same numbers and names, the greatest number on top, and each crate that it names is one;
- below `## The layers` a heading `### N. NAME` stands for each layer in the order of crates.txt, with a table of exactly its crates, in the same order.

Prints a line for each that isn't so, and ends with 1 where there is one.
"""
import os
import re
import sys

TOP = os.path.dirname(os.path.dirname(os.path.abspath(__file__)))
PAGE = "docs/ARCHITECTURE.md"


def lines_of(path):
    with open(os.path.join(TOP, path), encoding="utf-8") as file:
        return file.read().split("\n")


class Layer:
    def __init__(self, number, name):
        self.title = f"{number}. {name}"
        self.crates = []


def listed_layers(found):
    """The layers of crates.txt, and of each crate the number of its line and what it needs. Says what is wrong with them to `found`."""
    layers, needs = [], {}
    for number, line in enumerate(lines_of("crates.txt"), 1):
        head = re.fullmatch(r"# (\d+)\. (.*)", line)
        if head:
            layers.append(Layer(*head.groups()))
            if int(head.group(1)) != len(layers):
                found.append(f"crates.txt:{number}: the layer {layers[-1].title} is the {len(layers)}th")
        elif line.strip() and not line.startswith("#"):
            crate = line.split(":")[0].split()[0]
            if not layers:
                found.append(f"crates.txt:{number}: `{crate}` stands in no layer")
                layers.append(Layer(0, "none"))
            if crate in needs:
                found.append(f"crates.txt:{number}: `{crate}` stands twice")
            layers[-1].crates.append(crate)
            needs[crate] = (number, line.partition(":")[2].split())
    return layers, needs


def check_needs(needs, found):
    """Dependencies go down, and the crates are those that are there."""
    folders = {name for name in os.listdir(os.path.join(TOP, "crates")) if os.path.isdir(os.path.join(TOP, "crates", name, "src"))}
    for crate in sorted(folders ^ set(needs)):
        found.append(f"crates.txt: `{crate}` is " + ("no folder of crates/" if crate in needs else "missing"))
    for crate, (number, used) in needs.items():
        for each in used:
            if each in needs and needs[each][0] >= number:
                found.append(f"crates.txt:{number}: `{crate}` uses `{each}`, which doesn't stand above it")


def drawn(lines):
    """The numbered lines of the drawing, and all its names that look like those of crates."""
    start = next((at for at, line in enumerate(lines) if line.startswith("    ")), len(lines))
    block = []
    for line in lines[start:]:
        if line and not line.startswith("    "):
            break
        block.append(line)
    titles = [re.match(r" +(\d+\. [A-Z][a-z ]*?)(  |$)", line) for line in block]
    return [title.group(1) for title in titles if title], set(re.findall(r"\b[a-z]+_[a-z_]+\b", "\n".join(block)))


def tabled(lines):
    """The headings of layers with the crates of their tables."""
    layers, inside = [], False
    for line in lines:
        if line.startswith("## "):
            inside = line == "## The layers"
        head = re.fullmatch(r"### (\d+)\. (.*)", line)
        if inside and head:
            layers.append(Layer(*head.groups()))
        row = re.match(r"\| `(\w+)` \|", line)
        if inside and row and layers:
            layers[-1].crates.append(row.group(1))
    return layers


def check_page(layers, found):
    lines = lines_of(PAGE)
    titles, names = drawn(lines)
    wanted = [layer.title for layer in layers]
    if titles[::-1] != wanted:
        found.append(f"{PAGE}: the drawing has {titles[::-1]}, and crates.txt has {wanted}")
    for name in sorted(names - {crate for layer in layers for crate in layer.crates}):
        found.append(f"{PAGE}: the drawing names `{name}`, which is no crate")
    tables = tabled(lines)
    if [layer.title for layer in tables] != wanted:
        found.append(f"{PAGE}: the tables are {[layer.title for layer in tables]}, and crates.txt has {wanted}")
    for table, layer in zip(tables, layers):
        if table.crates != layer.crates:
            found.append(f"{PAGE}: layer {table.title} has {table.crates}, and crates.txt has {layer.crates}")


def main():
    if len(sys.argv) != 1:
        sys.exit(__doc__)
    found = []
    layers, needs = listed_layers(found)
    check_needs(needs, found)
    check_page(layers, found)
    for line in found:
        print(line)
    print(f"{len(layers)} layers, {len(needs)} crates, {len(found)} wrong")
    sys.exit(1 if found else 0)


if __name__ == "__main__":
    main()
