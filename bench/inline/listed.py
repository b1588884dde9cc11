#!/usr/bin/env python3
"""Blocks of listed automata, with what each becomes when calls are copies: sizes, numbers of locations, and, where they are listed too,
edges with the variables that they set, loops and ends.

Usage: listed.py FILE.. The files have a row a line, as JSON: with a listing of automata as text (`out`), or with their blocks as data. Terms
are left out, as no number depends on them. It has bench/inline/program.txt tried by `rt try`."""
import json
import re
import sys

sys.dont_write_bytecode = True
from trial import tried  # noqa: E402


class Listed:
    """An automaton: roles (1 Brief), edges (from, to, set variables), calls (from, to, block, instance), loops (first, last, whether
    entering starts a turn, turn edges), and ends (0 a trap or 1 over, location)."""

    def __init__(self, bound, shared, locations, done):
        self.head = (bound, shared, locations, done)
        self.roles, self.edges, self.calls, self.loops, self.ends = [], [], [], [], []

    def line(self, number):
        """For the program, where blocks have other numbers."""
        edges = ", ".join(" ".join(map(str, [a, b, *(f"{x} 0 0" for x in sets)])) for a, b, sets in self.edges)
        calls = ", ".join(f"{a} {b} {number[block]} {instance}" for a, b, block, instance in self.calls)
        loops = ", ".join(" ".join(map(str, [first, last, entry, 0, *turns])) for first, last, entry, turns in self.nested())
        ends = ", ".join(f"{kind} {location} 0" for kind, location in self.ends)
        return f"{' '.join(map(str, self.head))} | {' '.join(map(str, self.roles))} | {edges} | {calls} | {loops} | {ends}\n"

    def nested(self):
        """The loops, outermost first."""
        return sorted(self.loops, key=lambda found: (found[0], -found[1]))

    def known(self):
        _, _, locations, done = self.head
        return locations, done, len(self.roles), self.edges, sorted(self.loops), self.ends


def read_line(listed, line):
    words = line.split()
    if words[0] == "var":
        listed.roles.append(int(words[3] == "Brief"))
    elif words[0] == "edge":
        listed.edges.append((int(words[2]), int(words[4]), []))
    elif line.startswith("  v"):
        listed.edges[-1][2].append(int(words[0][1:]))
    elif words[0] == "call":
        listed.calls.append((int(words[1]), int(words[3]), int(words[5]), int(words[7])))
    elif words[0] == "loop":
        turns = [int(word) for word in words[6:-1]]
        listed.loops.append((int(words[1]), int(words[3]), int(words[4] == "entry"), turns))
    elif words[0] in ("trap", "over"):
        listed.ends.append((int(words[0] == "over"), int(words[1])))


def sections(text):
    """Names with numbers of blocks, and sizes and automata; without one where there are counts alone."""
    found = {}
    name = None
    for line in text.splitlines():
        head = re.fullmatch(r"(block (\d+) \S+|inlined|unrolled \d+) size (\d+)", line)
        if head:
            name = head[1].split()[0] if head[2] is None else int(head[2])
            found[name] = (int(head[3]), None)
        elif line.startswith("pattern") or line.startswith("TooLarge"):
            found[line.split()[0]] = (0, None)
            name = None
        elif line.startswith("variables"):
            count = dict(zip(line.split()[::2], map(int, line.split()[1::2])))
            found[name] = (found[name][0], Listed(count["bound"], count["shared"], count["locations"], count["done"]))
        elif name is not None and found[name][1] is not None:
            read_line(found[name][1], line)
    return found


def of_text(row):
    """Blocks, the entry's number, the inlined size, its number of locations, and the automaton."""
    if "out" not in row:
        return None
    found = sections(row["out"])
    blocks = {name: listed for name, (_, listed) in found.items() if isinstance(name, int)}
    size, listed = found.get("inlined", (0, None))
    if not blocks or None in blocks.values() or (listed is None and "TooLarge" not in found):
        return None
    entry = [name for name in blocks if all(name != call[2] for block in blocks.values() for call in block.calls)]
    assert len(entry) == 1, entry
    return blocks, entry[0], size if listed else None, listed.head[2] if listed else None, listed


def of_data(row):
    """The same, without the automaton."""
    blocks = {}
    for name, block in row["blocks"].items():
        if block["edges"] is None:
            return None
        listed = Listed(block["bound"], block["shared"], block["locations"], block["done"])
        listed.roles = [int(role == "Brief") for _, role, _, _ in block["vars"]]
        listed.edges = [(a, b, [x for x, _ in sets]) for a, b, _, sets in block["edges"]]
        listed.calls = [tuple(call[:4]) for call in block["calls"]]
        listed.loops = [(first, last, int(entry), turns) for first, last, entry, turns, *_ in block["loops"]]
        listed.ends = [(0, trap[0]) for trap in block["traps"]]
        blocks[int(name)] = listed
    return blocks, row["entry"], row["inlined"], row.get("inlined_locations"), None


def told(line):
    """What the program says of the copy, as `known` has it."""
    head, edges, loops, ends = line.split("|")
    locations, done, count = map(int, head.split())
    found = []
    for said in edges.split(";")[:-1]:
        way, *sets = said.split(",")
        found.append((*map(int, way.split()), [int(one.split()[0]) for one in sets]))
    ranges = [tuple(map(int, said.split())) for said in loops.split(";")[:-1]]
    ranges = sorted((first, last, entry, turns) for first, last, entry, _, *turns in ranges)
    return locations, done, count, found, ranges, [tuple(map(int, said.split()[:2])) for said in ends.split(";")[:-1]]


def main():
    for file in sys.argv[1:]:
        rows = [json.loads(line) for line in open(file)]
        cases = [(i, case) for i, case in ((i, (of_data if "blocks" in row else of_text)(row)) for i, row in enumerate(rows, 1)) if case]
        text = ""
        for _, (blocks, entry, *_) in cases:
            order = [entry, *(name for name in blocks if name != entry)]
            number = {name: i for i, name in enumerate(order)}
            text += "".join(blocks[name].line(number) for name in order) + "go 1\n"
        said = tried(text)
        assert len(said) == len(cases), (len(said), len(cases), said[:3])
        sizes = whole = listings = called = 0
        for (i, (blocks, entry, size, locations, listed)), line in zip(cases, said):
            called += bool(blocks[entry].calls)
            if "large" in line:
                sizes += size is None
                continue
            copy = told(line)
            right = size == len(copy[3]) and locations == copy[0]
            sizes += right
            if not right:
                print(f"{file} row {i}: {size} edges, {locations} locations are listed, {len(copy[3])} and {copy[0]} are made")
            if listed:
                listings += 1
                whole += listed.known() == copy
                if listed.known() != copy:
                    print(f"{file} row {i}: {listed.known()} is listed, {copy} is made")
        print(f"{file}: {sizes} of {len(cases)} sizes agree, {called} of them with calls; {whole} of {listings} listings; {len(rows)} rows")


if __name__ == "__main__":
    main()
