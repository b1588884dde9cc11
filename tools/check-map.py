#!/usr/bin/env python3
"""Checks that docs/ARCHITECTURE.md maps the crates as crates.txt groups them.

A group of crates.txt is a comment line with the group's name, followed by its crates; in docs/ARCHITECTURE.md each has a section
`### NAME`, in the same order, with a row `| `CRATE` | ..` for each of its crates, in the same order, and for no other. What stands
in `<!-- .. -->` isn't looked at.

Usage: tools/check-map.py, anywhere. Each fault is a line on standard error, and the status is then 1."""
import pathlib
import re
import sys

ROOT = pathlib.Path(__file__).resolve().parent.parent
ROW = re.compile(r"\| `(\w+)` \|")


def groups_of_list():
    """The groups of crates.txt: a name, and the crates."""
    groups = []
    for line in (ROOT / "crates.txt").read_text(encoding="utf-8").splitlines():
        if re.fullmatch(r"# [\w ,]+", line):
            groups.append((line[2:], []))
        crate = line.partition("#")[0].partition(":")[0].strip()
        if crate and not groups:
            groups.append(("a crate before all groups", []))
        if crate:
            groups[-1][1].append(crate)
    return groups


def sections_of_map():
    """The sections of docs/ARCHITECTURE.md: a name, and the crates that have a row there."""
    text = (ROOT / "docs" / "ARCHITECTURE.md").read_text(encoding="utf-8")
    sections = []
    for line in re.sub(r"<!--.*?-->", "", text, flags=re.S).splitlines():
        if line.startswith("### "):
            sections.append((line[4:].strip(), []))
        elif line.startswith("## "):
            sections.append((None, []))
        elif sections and ROW.match(line):
            sections[-1][1].append(ROW.match(line).group(1))
    return [section for section in sections if section[0]]


def faults():
    listed, mapped = groups_of_list(), sections_of_map()
    names = [name for name, _ in mapped]
    if names != [name for name, _ in listed]:
        yield f"the sections are {', '.join(names)}; the groups of crates.txt are {', '.join(name for name, _ in listed)}"
    rows = dict(mapped)
    for name, crates in listed:
        there = rows.get(name, [])
        yield from (f"{crate} has no row in the section '{name}'" for crate in crates if crate not in there)
        yield from (f"{crate} has a row in '{name}', where crates.txt has no such crate" for crate in there if crate not in crates)
        if sorted(there) == sorted(crates) and there != crates:
            yield f"the rows of '{name}' stand in another order than in crates.txt"


def main():
    found = list(faults())
    for fault in found:
        print(f"check-map: docs/ARCHITECTURE.md: {fault}", file=sys.stderr)
    sys.exit(1 if found else 0)


if __name__ == "__main__":
    main()
