#!/usr/bin/env python3
"""Expressions of SCL whose automata are listed elsewhere: assignments with their checks, kinds and places, and their sets; conditions of IF,
ELSIF, WHILE and REPEAT with their checks; and what patterns hold; as `pv_rows_terms` tells them.

Usage: listed.py FILE.., or `listed.py rows FILE..` for the rows alone and `listed.py told ANSWERS FILE..` for what was answered to them. The
files have a row a line, as JSON: `files`, among them the case `c.json`, and a listing. That is `entry` and of each block by number `edges`
and `traps`, or none where the texts would be long; or it is text, `out`. Only sources of SCL without symbols are taken, and of these what
calls nothing."""
import json
import pathlib
import re
import subprocess
import sys

ROWS = pathlib.Path(__file__).resolve().parent.parent.parent / "crates" / "pv_rows_terms"
OPENING = r"\b(FUNCTION_BLOCK|FUNCTION|ORGANIZATION_BLOCK|DATA_BLOCK|TYPE)\b"
CLOSING = r"\bEND_(FUNCTION_BLOCK|FUNCTION|ORGANIZATION_BLOCK|DATA_BLOCK|TYPE)\b"
SECTION = r"\b(END_VAR|END_CONST|BEGIN)\b"
BEFORE = r";|\b(?:THEN|ELSE|DO|REPEAT)\b|:(?!=)"
WORD = r"\b(?:IF|ELSIF|CASE|FOR|WHILE|UNTIL|EXIT|CONTINUE|RETURN|END_\w+)\b"
TEST = r"\b(?:IF|ELSIF)\b(.*?)\bTHEN\b|\bWHILE\b(.*?)\bDO\b|\bUNTIL\b(.*?)(?:;|\bEND_REPEAT\b)"
TYPES = "BOOL|BYTE|WORD|DWORD|INT|DINT|TIME"
TEXTS = ("a", "b", "c")
ADDRESS = r"(?<![\w.])%?([IQM])\s*([BWD]?)\s*(\d+)(?:\.(\d+))?"


def without_comments(text):
    """The text with blanks for comments, so that places stay."""
    blank = lambda found: re.sub(r"[^\n]", " ", found.group())
    return re.sub(r"\(\*.*?\*\)|//[^\n]*|\{.*?\}", blank, text, flags=re.S)


def blocks_in(text):
    """Where the blocks of a text begin and end, in order."""
    found, at = [], 0
    for opening in re.finditer(OPENING, text, re.I):
        if opening.start() >= at:
            closing = re.search(CLOSING, text[opening.end():], re.I)
            at = opening.end() + closing.end()
            found.append((opening, opening.end() + closing.start()))
    return found


def assignments(text, first, last):
    """The target and the value of each assignment in the text from one place to another, with the places where they begin."""
    at = first
    for mark in [*re.finditer(BEFORE, text[first:last], re.I), None]:
        begins, at = at, last if mark is None else first + mark.end()
        ends = last if mark is None else first + mark.start()
        piece = text[begins:ends]
        target, sign, value = piece.partition(":=")
        bare = re.sub(r"\[.*\]", "", target, flags=re.S)
        if sign and "(" not in bare and not re.search(WORD, piece, re.I) and (mark is None or mark.group() == ";"):
            skip = len(target) - len(target.lstrip())
            yield target.strip(), begins + skip, value, begins + len(target) + len(sign)


def tests(text, first, last):
    """The conditions in the text from one place to another, with the places where they begin."""
    for found in re.finditer(TEST, text[first:last], re.I | re.S):
        part = next(at for at in (1, 2, 3) if found[at] is not None)
        bare = found[part].lstrip()
        yield bare, first + found.end(part) - len(bare)


def naming(pattern):
    """A function that names the addresses which a pattern's texts name, as their bytes have cells too."""
    found = re.finditer(ADDRESS, " ; ".join(pattern[text] for text in TEXTS if text in pattern), re.I)
    names = {one.group() for one in found if (one[2] == "") == (one[4] is not None)}
    target = lambda name: {"b": "y", "w": "w", "d": "d"}.get(re.match(ADDRESS, name, re.I)[2].lower(), "b")
    body = " ".join(f"{target(name)} := {name};" for name in sorted(names))
    temp = "VAR_TEMP b : BOOL; y : BYTE; w : WORD; d : DWORD; END_VAR"
    return f"FUNCTION named_by_the_pattern : INT {temp} {body} named_by_the_pattern := 0; END_FUNCTION" if names else ""


# ---- listings


def plain(term):
    """A term of a listing that is text, as the others write it."""
    term = re.sub(rf"\b({TYPES}):(-?\d+)", r"\2:\1", term)
    counted = lambda found: f"{found[1]}{f'[{found[2]}]' if found[2] else ''}:{found[3]}("
    return re.sub(rf"\b([A-Z][A-Za-z]*)(\d*)\[({TYPES})\]\(", counted, term)


class Listing:
    """The entry's number, edges and traps of each block by number, and what the pattern holds."""

    def __init__(self, row, case):
        self.entry, self.blocks, self.pattern = row.get("entry"), row.get("blocks") or {}, None
        if "out" in row:
            self.read(row, case)

    def read(self, row, case):
        block, within = None, False
        for line in row["out"].splitlines():
            word, _, rest = line.partition(" ")
            parts = rest.split(" ")
            if word in ("block", "inlined", "unrolled"):
                within, block = word == "block", {"edges": [], "traps": []}
            if word == "block":
                self.blocks[parts[0]] = block
                name = " ".join(parts[1:-2])
                if name.replace(" ", "").lower() == case["entry"].replace(" ", "").lower():
                    self.entry = int(parts[0])
            elif word == "edge" and within:
                _, ends, guard = re.match(r"(\d+) (\d+ -> \d+) if (.*)", rest).groups()
                block["edges"].append((*map(int, ends.split(" -> ")), plain(guard), []))
            elif line.startswith("  v") and within:
                variable, term = line.strip().split(" := ")
                block["edges"][-1][3].append([int(variable[1:]), plain(term)])
            elif word == "trap" and within:
                block["traps"].append((int(parts[0]), parts[1], *self.place(row, case, parts[2])))
            elif word == "variables":
                self.variables = int(parts[0])
            elif word == "pattern":
                self.pattern = plain(rest.partition(" holds ")[2])
            elif word == "prev":
                self.marks = re.match(r"has (v\d+) was (v\d+) ", rest).groups()

    @staticmethod
    def place(row, case, text):
        """The number of a place's file, and its offset."""
        name, line, column = text.rsplit(":", 2)
        files = [source["file"] for source in case["sources"]]
        before = row["files"][name].split("\n")[: int(line) - 1]
        return files.index(name), sum(len(one) + 1 for one in before) + int(column) - 1


# ---- what is asked


class Part:
    """What is asked of one block: so many texts by one call."""

    def __init__(self, name, call, entry, block, text, rows):
        self.name, self.call, self.entry, self.block, self.text, self.rows = name, call, entry, block, text, rows

    def __str__(self):
        source = self.text.replace("@", "@a").replace("\n", "@n").replace("|", "@x7C").replace("\r", "@r").replace("\t", "@t")
        lines = [f"part {self.name}", f"call {self.call}", f"entry {self.entry}", f"block {self.block}", f"source {source}"]
        return "\n".join([*lines, *("row " + re.sub(r"\s", " ", row).strip() for row in self.rows)]) + "\n"


class Block:
    """A block's assignments and conditions, and what is listed of it."""

    def __init__(self, name, entry, number, listed, text, file):
        self.name, self.entry, self.number, self.listed, self.text, self.file = name, entry, number, listed, text, file
        self.statements, self.conditions = [], []

    def parts(self):
        rows = [f"{target} :={value}" for target, _, value, _ in self.statements]
        yield Part(self.name, "assigned", self.entry, self.number, self.text, rows)
        yield Part(f"{self.name}t", "lowered", self.entry, self.number, self.text, [text for text, _ in self.conditions])

    def judged(self, answers):
        """Of each answer its name, what was asked, what was answered, and whether that is listed."""
        for at, (target, target_at, value, value_at) in enumerate(self.statements, 1):
            name, sets = f"{self.name} {at}", lambda answer, to=(value_at, target_at): self.assigns(answer, to)
            yield name, f"{target} := {value.strip()}", answers.get(name, "nothing"), read_sets, sets
        for at, (text, begins) in enumerate(self.conditions, 1):
            name, tested = f"{self.name}t {at}", lambda answer, begins=begins: self.tests(answer, begins)
            yield name, text, answers.get(name, "nothing"), read_term, tested

    def checked(self, at, checks, places):
        """Whether the edges before this one are those of the checks, which stand so far behind one of these places."""
        terms = [term for _, _, term in checks]
        before = self.listed["edges"][at - len(checks):at]
        ends = {trap[0]: trap[1:] for trap in self.listed["traps"]}
        same = at >= len(checks) and [edge[2] for edge in before] == guards(terms)[:-1]
        for edge, (kind, place, _) in zip(before, checks):
            same = same and edge[1] in ends and ends[edge[1]][0] == kind and ends[edge[1]][1] == self.file
            same = same and ends[edge[1]][2] in [begins + place for begins in places]
        return same

    def assigns(self, answer, places):
        """Whether a location of the block has just these edges."""
        checks, sets = answer
        way = guards([term for _, _, term in checks])[-1]
        return any(edge[3] == sets and edge[2] == way and self.checked(at, checks, places) for at, edge in enumerate(self.listed["edges"]))

    def tests(self, answer, begins):
        """The same of two ways, where the term is true and where it isn't."""
        checks, term = answer
        none = guards([check for _, _, check in checks])[-1]
        ways = sorted(one if none == "1:BOOL" else f"And:BOOL({one}, {none})" for one in (term, f"Not:BOOL({term})"))
        edges = self.listed["edges"]
        return any(
            sorted((edge[2], other[2])) == ways and edge[0] == other[0] and self.checked(at, checks, (begins,))
            for at, (edge, other) in enumerate(zip(edges, edges[1:]))
        )


class Pattern:
    """A case's pattern, and what is listed of it."""

    def __init__(self, name, listing, text, pattern):
        self.name, self.listing, self.text, self.pattern = name, listing, text, pattern

    def parts(self):
        rows = [self.pattern[text] for text in TEXTS if text in self.pattern]
        yield Part(self.name, "lowered", self.listing.entry, self.listing.entry, self.text, rows)

    def judged(self, answers):
        count = sum(text in self.pattern for text in TEXTS)
        said = [answers.get(f"{self.name} {at}", "nothing") for at in range(1, count + 1)]
        yield self.name, str(self.pattern), " | ".join(said), lambda _: [read_term(one) for one in said], self.holds

    def holds(self, answer):
        if any(checks for checks, _ in answer):
            return False
        a, b, c = [*(term for _, term in answer), None, None][:3]
        kind = self.pattern["kind"]
        later = lambda found: f"v{self.listing.variables + int(found[1])}"
        if kind in ("implication", "within"):
            first = re.sub(r"\bv(\d+)", later, a) if kind == "within" else a
            held = f"Or:BOOL(Not:BOOL({first}), {b})"
        elif kind == "between":
            held = f"Or:BOOL(Not:BOOL(And:BOOL(And:BOOL({', '.join(self.listing.marks)}), {b})), {c})"
        else:
            held = f"Not:BOOL({a})" if kind == "forbidden" else a
        return held == self.listing.pattern


def asked_of(path):
    """The blocks and the patterns of the rows that are taken."""
    for at, line in enumerate(pathlib.Path(path).read_text().splitlines()):
        row = json.loads(line)
        if not all(isinstance(text, str) for text in row["files"].values()):
            continue
        case = json.loads(row["files"]["c.json"])
        sources = case["sources"]
        if "symbols" in case or any(source["language"] != "scl" for source in sources):
            continue
        listing = Listing(row, case)
        texts = [without_comments(row["files"][source["file"]]) for source in sources]
        whole, number, stem = "\n".join([*texts, naming(case["pattern"])]), 0, f"{pathlib.Path(path).stem}{at}"
        if listing.pattern is not None and listing.entry is not None:
            yield Pattern(f"{stem}p", listing, whole, case["pattern"])
        for file, text in enumerate(texts):
            for opening, last in blocks_in(text):
                marks = [mark.end() for mark in re.finditer(SECTION, text[opening.end():last], re.I)]
                first = opening.end() + max(marks, default=0)
                is_code = opening.group().upper() in ("FUNCTION_BLOCK", "FUNCTION", "ORGANIZATION_BLOCK")
                block = Block(f"{stem}b{number}", listing.entry, number, listing.blocks.get(str(number)), whole, file)
                number += 1
                if is_code and marks and block.listed and block.listed.get("edges") and listing.entry is not None:
                    block.statements = list(assignments(text, first, last))
                    block.conditions = list(tests(text, first, last))
                    yield block


# ---- what is answered


def guards(checks):
    """The guards of each check's edge, where none before it is true, and of the way behind all of them."""
    found, none = [], None
    for check in checks:
        found.append(check if none is None else f"And:BOOL({check}, {none})")
        none = f"Not:BOOL({check})" if none is None else f"And:BOOL({none}, Not:BOOL({check}))"
    return [*found, none or "1:BOOL"]


def shifted(term):
    """A term as listings write it."""
    return re.sub(r"\b(Left|Right)(\d+):", r"\1[\2]:", term)


def read_checks(answer):
    """Checks as (kind, place, term), and the rest."""
    checks = []
    while found := re.match(r"(DivideByZero|Index|Unset) at (\d+): (.*?); ", answer):
        checks.append((found[1], int(found[2]), shifted(found[3])))
        answer = answer[found.end():]
    return checks, answer


def read_sets(answer):
    """Checks, and sets as [variable, term]; none where it is no answer of terms."""
    checks, rest = read_checks(answer)
    sets = [re.match(r"v(\d+) := (.*)$", one) for one in re.split(r", (?=v\d+ := )", rest)]
    if not all(sets) or ".." in answer:
        return None
    return checks, [[int(one[1]), shifted(one[2])] for one in sets]


def read_term(answer):
    """Checks and a term, or none."""
    checks, rest = read_checks(answer)
    if not re.match(rf"v\d+$|-?\d+:({TYPES})$|\w+:({TYPES})\(", rest) or ".." in answer:
        return None
    return checks, shifted(rest)


def main(words):
    told = words[1:2] if words[0] == "told" else []
    files = words[1 + len(told):] if words[0] in ("rows", "told") else words
    things = [thing for file in files for thing in asked_of(file)]
    rows = "\n" + "\n".join(str(part) for thing in things for part in thing.parts() if part.rows)
    if words[0] == "rows":
        print(rows)
        return
    if told:
        text = pathlib.Path(told[0]).read_text()
    else:
        tried = ["rt", "try", "--steps", "20000000000", "--seconds", "3600"]
        text = subprocess.run(tried, cwd=ROWS, input=rows, capture_output=True, text=True).stdout
    answers = dict(line.split(": ", 1) for line in text.splitlines() if ": " in line)
    counts = {kind: [0, 0, 0] for kind in ("assignments", "conditions", "patterns")}
    for thing in things:
        for name, asked, said, read, stands in thing.judged(answers):
            kind = "patterns" if isinstance(thing, Pattern) else "conditions" if "t " in name else "assignments"
            answer = read(said)
            if answer is None or isinstance(answer, list) and None in answer:
                counts[kind][1] += 1
                print(f"{name}: {asked[:60]}: {said[:100]}")
            elif stands(answer):
                counts[kind][0] += 1
            else:
                counts[kind][2] += 1
                print(f"OTHER {name}: {asked}: {said}")
    for kind, (right, unread, other) in counts.items():
        print(f"{kind}: {right} as listed, {other} other, {unread} no terms")


if __name__ == "__main__":
    main(sys.argv[1:])
