#!/usr/bin/env python3
"""Pictures of a replay: waveforms of what `plcv show` tells, for a viewer of VCD files or as one SVG file.

    tools/waveform.py CASE TRACE >wave.vcd
    tools/waveform.py --svg CASE TRACE [CELL ..] >wave.svg

It is called in the folder in which plcv would be called, and runs `plcv show CASE TRACE` there. What plcv refuses is told on standard
error, and nothing is written.

The VCD file (IEEE 1364) has one time step a scan: scan N lasts from N to N + 1, and before 1 the cells have their start values. BOOL is
a wire, every other type a vector in two's complement of its width; structures, instances and data blocks are scopes. The requirement's
expressions are in the scope `requirement`, and the wire `plcv_fails` is 1 in the scan that fails.

The SVG file is a timing diagram with a lane for each cell named, and where none is for each that changes and each expression: BOOL as a
line, numbers as boxes with their values, the scan that fails shaded. A name is a path as `plcv show` prints it, in any letter case, or
a letter of the requirement.

Types and start values are looked up in the declarations of the case's sources, in a simple way; a cell whose declaration isn't found
that way is as wide as its values ask. Nothing here is trusted: the values are plcv's, the picture is this program's."""
import argparse
import json
import os
import pathlib
import re
import subprocess
import sys
from xml.sax.saxutils import escape

ROOT = pathlib.Path(__file__).resolve().parent.parent
PLCV = os.environ.get("PLCV", str(ROOT / "plcv"))
LETTERS = "abc"
# The bits of each type, and whether it is signed.
WIDTHS = {"BOOL": 1, "BYTE": 8, "WORD": 16, "DWORD": 32, "INT": 16, "DINT": 32, "TIME": 32}
VALUE = re.compile(r"(.+) = (-?\d+)", re.S)


class Fault(Exception):
    """What is told on standard error, with the status."""

    def __init__(self, text, status=1):
        super().__init__(text)
        self.status = status


def text_of(read):
    """The text of bytes that are UTF-8, or else of one sign each."""
    try:
        return read.decode("utf-8")
    except UnicodeDecodeError:
        return read.decode("latin-1")


# ---- what plcv tells


class Shown:
    """What `plcv show` tells: the case's name, the scans with their values, and how the replay ends."""

    def __init__(self, name, scans, ending):
        self.name, self.scans, self.ending = name, scans, ending
        words = dict(line.split(" ", 1) for line in ending if " " in line)
        self.told = int(words["scan"]) if "scan" in words else None
        self.fails = self.told if words.get("replay") in ("broken", "over") else None


class Scan:
    """A scan: the new values of cells by their paths, inputs first, and the truths of the expressions, none where it isn't done."""

    def __init__(self):
        self.inputs, self.cells, self.truths = {}, {}, []


def read_show(text, letters):
    """What the text of `plcv show` says, of a requirement with so many expressions."""
    lines = text.split("\n")
    if lines[0] != "PLCV 1" or not lines[1].startswith("case "):
        raise Fault(f"waveform: this is no text of plcv show: {lines[0]}")
    at, scans = 2, []
    while at < len(lines) and lines[at] == f"scan {len(scans) + 1}":
        at += 1
        first = at
        while at < len(lines) and VALUE.fullmatch(lines[at]):
            at += 1
        scans.append(lines[first:at])
    ending = [line for line in lines[at:] if line]
    if not ending or not ending[0].startswith("replay "):
        raise Fault("waveform: the text of plcv show has no end")
    stopped = any(re.match(r"(cause trap|over|trap) ", line) for line in ending[1:])
    return Shown(lines[1][5:], [read_scan(of, 0 if stopped and of is scans[-1] else letters) for of in scans], ending)


def read_scan(lines, letters):
    scan = Scan()
    behind = len(lines) - letters
    for line in lines[:behind]:
        given = VALUE.fullmatch(line[3:]) if line.startswith("in ") else None
        path, value = (given or VALUE.fullmatch(line)).groups()
        (scan.inputs if given else scan.cells)[path] = int(value)
    scan.truths = [int(VALUE.fullmatch(line).group(2)) for line in lines[behind:]]
    return scan


def show(case_file, trace_file):
    """What plcv shows of the trace, and the case."""
    run = subprocess.run([PLCV, "show", case_file, trace_file], stdin=subprocess.DEVNULL, stdout=subprocess.PIPE)
    if run.returncode > 2 or not run.stdout.startswith(b"PLCV 1\n"):
        raise Fault(text_of(run.stdout).strip() or "waveform: plcv told nothing", run.returncode or 1)
    case = json.loads(pathlib.Path(case_file).read_bytes())
    letters = sum(letter in case["pattern"] for letter in LETTERS)
    return read_show(text_of(run.stdout), letters), case


# ---- declarations


TOKEN = re.compile(
    r"(?P<gap>\s+|\(\*.*?\*\)|//[^\n]*|\{[^}]*\})|(?P<quoted>\"[^\"\n]*\")|(?P<text>'(?:\$.|[^'$])*')"
    r"|(?P<word>[A-Za-z_]\w*)|(?P<sign>:=|\.\.|[-+]?\d[\w#.]*?(?=\.\.)|[-+]?\d[\w#]*|.)",
    re.S,
)
OPENERS = {"FUNCTION_BLOCK", "ORGANIZATION_BLOCK", "DATA_BLOCK", "TYPE", "FUNCTION"}
NUMBERED = {"FB", "DB", "UDT", "OB", "FC"}


def tokens_of(text):
    return [found.group() for found in TOKEN.finditer(text) if not found.group("gap")]


def key_of(name):
    """A name or a path as it is compared: without quotes and blanks, in lower case."""
    return re.sub(r'[\s"]', "", name).lower()


class Declarations:
    """The variables that the sources of a case declare, by block."""

    def __init__(self, texts):
        self.blocks = {}
        for text in texts:
            self.tokens, self.at = tokens_of(text), 0
            try:
                self.read()
            except (IndexError, ValueError):
                pass

    def next(self):
        self.at += 1
        return self.tokens[self.at - 1]

    def peek(self):
        return self.tokens[self.at].upper() if self.at < len(self.tokens) else ""

    def name(self):
        word = self.next()
        if word.upper() in NUMBERED and self.peek().isdigit():
            word += self.next()
        return key_of(word)

    def read(self):
        while self.at < len(self.tokens):
            opener = self.next().upper()
            if opener not in OPENERS:
                continue
            block = self.blocks.setdefault(self.name(), {})
            while self.peek() and self.peek() not in ("BEGIN", f"END_{opener}"):
                word = self.peek()
                if word.startswith("VAR") or word == "STRUCT":
                    self.next()
                    self.variables(block)
                elif opener == "DATA_BLOCK" and (word.startswith('"') or word in ("FB", "UDT")):
                    block[""] = ("name", self.name(), None)
                else:
                    self.next()

    def variables(self, into):
        """Variables up to the end of their section or structure."""
        while not self.peek().startswith("END_"):
            names = [key_of(self.next())]
            while self.peek() == ",":
                self.next()
                names.append(key_of(self.next()))
            if self.next() != ":":
                raise ValueError
            kind = self.kind()
            start = None
            if self.peek() == ":=":
                self.next()
                start = [self.next()]
                while self.peek() not in (";", "") and not self.peek().startswith("END_"):
                    start.append(self.next())
            if self.peek() == ";":
                self.next()
            for name in names:
                into[name] = (*kind[:2], start)
        self.next()

    def kind(self):
        word = self.peek()
        if word == "ARRAY":
            while self.next().upper() != "OF":
                pass
            return ("array", self.kind(), None)
        if word == "STRUCT":
            self.next()
            fields = {}
            self.variables(fields)
            return ("fields", fields, None)
        return ("name", self.name(), None)

    def find(self, entry, path):
        """The type of the cell of this path, its start value and its place among the cells; none for what isn't known."""
        if area := re.fullmatch(r"([IQM])B ?(\d+)", path, re.I):
            return "BYTE", 0, (2, "IQM".index(area.group(1).upper()), int(area.group(2)))
        parts = re.findall(r'"[^"]*"|\[[^\]]*\]|[^.\[\]"]+', path)
        kind, place = ("name", key_of(entry), None), [0]
        if parts and key_of(parts[0]) in self.blocks and key_of(parts[0]) not in self.blocks.get(key_of(entry), {}):
            key = key_of(parts.pop(0))
            kind, place = self.blocks[key].get("", ("name", key, None)), [1, list(self.blocks).index(key)]
        for part in parts:
            kind, at = self.step(kind, part)
            place.append(at)
        if kind[0] != "name" or kind[1].upper() not in WIDTHS:
            return None, None, None
        return kind[1].upper(), self.number(kind[2]), tuple(place)

    def step(self, kind, part):
        """The part of a type behind a field's name or an index, and its place."""
        if kind[0] == "array" and part.startswith("["):
            return (*kind[1][:2], kind[2] and []), tuple(map(int, re.findall(r"-?\d+", part)))
        fields = kind[1] if kind[0] == "fields" else self.blocks.get(kind[1], {}) if kind[0] == "name" else {}
        key = key_of(part)
        return (fields[key], list(fields).index(key)) if key in fields else (("unknown", "", None), 0)

    @staticmethod
    def number(start):
        """A start value; 0 where none is declared, none where it isn't simple."""
        if start is None:
            return 0
        text = "".join(start).upper()
        if text in ("TRUE", "FALSE"):
            return int(text == "TRUE")
        return int(text) if re.fullmatch(r"[-+]?\d+", text) else None


def declarations_of(case):
    texts = []
    for source in case.get("sources", []):
        try:
            texts.append(text_of(pathlib.Path(source["file"]).read_bytes()))
        except (OSError, KeyError, TypeError):
            pass
    return Declarations(texts)


# ---- lanes


class Lane:
    """A cell or an expression: its path, its type's width, its value before the first scan and at each scan; none where it isn't known."""

    def __init__(self, path, width, start, values):
        self.path, self.width, self.start, self.values = path, width, start, values

    def changes(self):
        return len({self.start, *self.values} - {None}) > 1


def width_for(values):
    """The least width of a type that has the values."""
    least, most = min(values), max(values)
    for width in (1, 8, 16):
        if (least >= 0 and most < 1 << width) or (width > 1 and least >= -(1 << width - 1) and most < 1 << width - 1):
            return width
    return 32


def table_order(lists, found):
    """The paths of all lists, in the order of the table where each is found in the declarations, else in one that keeps that of each list."""
    if all(found[path][2] for paths in lists for path in paths):
        return sorted(dict.fromkeys(path for paths in lists for path in paths), key=lambda path: found[path][2])
    order = []
    for paths in lists:
        behind = len(order)
        for path in reversed(list(paths)):
            if path in order:
                behind = order.index(path)
            else:
                order.insert(behind, path)
    return order


def lanes_of(shown, case):
    """A lane for each cell that is told of, inputs first, then one for each expression."""
    declared = declarations_of(case)
    bound = {key_of(path): int(value) for path, value in (case.get("bind") or {}).items()}
    found = {path: declared.find(case.get("entry", ""), path) for scan in shown.scans for path in (*scan.inputs, *scan.cells)}
    inputs = table_order([scan.inputs for scan in shown.scans], found)
    others = table_order([scan.cells for scan in shown.scans], found)
    lanes = []
    for path in inputs + others:
        values, value = [], None
        for scan in shown.scans:
            value = (scan.inputs if path in inputs else scan.cells).get(path, value)
            values.append(value)
        known = [v for v in values if v is not None]
        kind, start, _ = found[path]
        width = WIDTHS[kind] if kind else width_for(known)
        start = None if path in inputs else bound.get(key_of(path), start)
        # (a BOOL that changes had the other value)
        if start is None and width == 1 and values[0] is None:
            start = 1 - known[0]
        lanes.append(Lane(path, width, start, [start if v is None else v for v in values]))
    for number in range(max((len(scan.truths) for scan in shown.scans), default=0)):
        truths = [scan.truths[number] if scan.truths else None for scan in shown.scans]
        lanes.append(Lane(LETTERS[number], 1, None, truths))
    return lanes, len(lanes) - max((len(scan.truths) for scan in shown.scans), default=0)


# ---- VCD


def identifier(number):
    """A short name of printable signs."""
    text = ""
    while True:
        number, sign = divmod(number, 94)
        text += chr(33 + sign)
        if not number:
            return text
        number -= 1


def change(lane, value, name):
    if lane.width == 1:
        return f"{'x' if value is None else value}{name}"
    bits = "x" if value is None else format(value & (1 << lane.width) - 1, f"0{lane.width}b")
    return f"b{bits} {name}"


def scopes_of(lane):
    """The scopes that a path lies in, and its name there."""
    names = [re.sub(r"\s", "_", part.replace('"', "").replace("[", "(").replace("]", ")"))
             for part in re.findall(r'(?:"[^"]*"|[^."])+', lane.path)]
    return names[:-1], names[-1]


def vcd(shown, lanes, cells):
    """The VCD file's text."""
    out = ["$version plcv show $end", "$timescale 1 ms $end", f"$scope module {shown.name} $end", "$var wire 1 ! plcv_fails $end"]
    names = [identifier(number + 1) for number in range(len(lanes))]
    tree = {}
    for number, lane in enumerate(lanes):
        scopes, name = scopes_of(lane)
        if number >= cells:
            scopes = ["requirement"]
        folder = tree
        for scope in scopes:
            folder = folder.setdefault((scope, "scope"), {})
        folder[(name, "var", number)] = lane

    def write(folder):
        for key, item in folder.items():
            if key[1] == "scope":
                out.append(f"$scope module {key[0]} $end")
                write(item)
                out.append("$upscope $end")
            else:
                bits = f" [{item.width - 1}:0]" if item.width > 1 else ""
                out.append(f"$var wire {item.width} {names[key[2]]} {key[0]}{bits} $end")

    write(tree)
    out += ["$upscope $end", "$enddefinitions $end", "#0", "$dumpvars", "0!"]
    out += [change(lane, lane.start, name) for lane, name in zip(lanes, names)] + ["$end"]
    last = [lane.start for lane in lanes]
    for at in range(len(shown.scans)):
        out.append(f"#{at + 1}")
        if shown.fails == at + 1:
            out.append("1!")
        for number, lane in enumerate(lanes):
            if lane.values[at] != last[number]:
                out.append(change(lane, lane.values[at], names[number]))
                last[number] = lane.values[at]
    out.append(f"#{len(shown.scans) + 1}")
    return "\n".join(out) + "\n"


# ---- SVG


STYLE = """text{font:12px ui-monospace,Menlo,Consolas,monospace;fill:#222}
.title{font-weight:bold;font-size:14px}.scan{fill:#666;font-size:10px;text-anchor:middle}.value{font-size:11px;text-anchor:middle}
.line{fill:none;stroke:#0a5a8a;stroke-width:1.6}.truth .line{stroke:#7a3b8f}.unknown{fill:none;stroke:#aaa;stroke-dasharray:3 3}
.box{fill:#f2f7fa;stroke:#0a5a8a;stroke-width:1.2}.grid{stroke:#e4e4e4;stroke-width:1}
.fails{fill:#d33;fill-opacity:.16}.reached{fill:#2a2;fill-opacity:.16}.ending{fill:#555}"""
LANE, HIGH, SIGN = 30, 18, 6.8


def runs_of(values):
    """The values with the stretches that they last: first scan, from 0, the scan behind the last, value."""
    at = 0
    while at < len(values):
        end = at
        while end < len(values) and values[end] == values[at]:
            end += 1
        yield at, end, values[at]
        at = end


def scan_width(lanes, count):
    """How wide a scan is drawn, so that most numbers fit into their boxes."""
    asked = [24.0]
    for lane in lanes:
        if lane.width > 1:
            asked += [(len(str(v)) * SIGN + 10) / (end - at) for at, end, v in runs_of(lane.values) if v is not None]
    return min(max(asked), 64.0 if count <= 16 else 46.0)


def draw(lane, top, left, wide, truth):
    """A lane's elements."""
    low = top + HIGH
    out = [f'<g class="lane{" truth" if truth else ""}">', f'<text x="8" y="{low - 4}">{escape(lane.path)}</text>']
    points = []
    for at, end, value in runs_of(lane.values):
        x, to = left + at * wide, left + end * wide
        if value is None:
            out.append(f'<path class="unknown" d="M{x:.1f} {top + HIGH / 2}H{to:.1f}"/>')
        elif lane.width == 1:
            y = top if value else low
            points.append(f"{'L' if points and at else 'M'}{x:.1f} {y}H{to:.1f}")
        else:
            cut = min(4.0, wide / 4)
            middle = top + HIGH / 2
            out.append(f'<path class="box" d="M{x:.1f} {middle}L{x + cut:.1f} {top}H{to - cut:.1f}L{to:.1f} {middle}'
                       f'L{to - cut:.1f} {low}H{x + cut:.1f}Z"><title>{value}</title></path>')
            if len(str(value)) * SIGN <= to - x - 2:
                out.append(f'<text class="value" x="{(x + to) / 2:.1f}" y="{middle + 4}">{value}</text>')
    if points:
        out.append(f'<path class="line" d="{"".join(points)}"/>')
    return out + ["</g>"]


def svg(shown, lanes, truths):
    """The SVG file's text; the last lanes so many are expressions."""
    count = len(shown.scans)
    wide = scan_width(lanes, count)
    left = 24 + 7.4 * max([len(lane.path) for lane in lanes] + [4])
    width, top = left + max(count, 4) * wide + 16, 62
    height = top + len(lanes) * LANE + 28
    out = [f'<svg xmlns="http://www.w3.org/2000/svg" width="{width:.0f}" height="{height}" viewBox="0 0 {width:.0f} {height}">',
           f"<style>{STYLE}</style>", f'<rect width="{width:.0f}" height="{height}" fill="#fff"/>',
           f'<text class="title" x="8" y="22">{escape(shown.name)}</text>', f'<text x="8" y="48">scan</text>']
    if shown.told and shown.told <= count:
        kind = "fails" if shown.fails else "reached"
        out.append(f'<rect class="{kind}" x="{left + (shown.told - 1) * wide:.1f}" y="36" width="{wide:.1f}" height="{height - 62}"/>')
    for scan in range(count + 1):
        x = left + scan * wide
        out.append(f'<path class="grid" d="M{x:.1f} 54V{height - 26}"/>')
        if scan < count and (count <= 100 or scan % 10 == 9):
            out.append(f'<text class="scan" x="{x + wide / 2:.1f}" y="48">{scan + 1}</text>')
    for number, lane in enumerate(lanes):
        out += draw(lane, top + number * LANE, left, wide, number >= len(lanes) - truths)
    out.append(f'<text class="ending" x="8" y="{height - 8}">{escape(", ".join(shown.ending))}</text>')
    return "\n".join(out + ["</svg>"]) + "\n"


def chosen(lanes, cells, names):
    """The lanes that are drawn, and how many of them are expressions: those that are named, or those that change and the expressions."""
    if not names:
        kept = [lane for number, lane in enumerate(lanes) if number >= cells or lane.changes()]
        return kept, len(lanes) - cells
    found = []
    for name in names:
        lane = next((lane for lane in lanes if key_of(lane.path) == key_of(name)), None)
        if lane is None:
            raise Fault(f"waveform: no line of plcv show tells of {name}")
        found.append((lanes.index(lane) >= cells, lane))
    return [lane for truth in (False, True) for is_truth, lane in found if is_truth is truth], sum(truth for truth, _ in found)


def main():
    parser = argparse.ArgumentParser(description="Waveforms of a replay, as VCD or as SVG.")
    parser.add_argument("--svg", action="store_true", help="a timing diagram as SVG")
    parser.add_argument("case")
    parser.add_argument("trace")
    parser.add_argument("cells", nargs="*", help="with --svg: the cells that are drawn")
    args = parser.parse_args()
    if args.cells and not args.svg:
        parser.error("cells are named with --svg alone")
    try:
        shown, case = show(args.case, args.trace)
        lanes, cells = lanes_of(shown, case)
        text = svg(shown, *chosen(lanes, cells, args.cells)) if args.svg else vcd(shown, lanes, cells)
    except Fault as fault:
        print(fault, file=sys.stderr)
        sys.exit(fault.status)
    sys.stdout.buffer.write(text.encode("utf-8"))


if __name__ == "__main__":
    main()
