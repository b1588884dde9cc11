#!/usr/bin/env python3
"""Checks tools/waveform.py: the tank's broken trace, whose scans were worked out by hand, read back from the VCD file by a short reader of
its own and by `vcd2fst` where that is installed; timing diagrams as XML, with as many lanes as asked; and the faults.

Usage: tools/check-waveform.py, anywhere. Each difference is a line on standard error, and the status is then 1. It needs a built program;
./plcv builds it where it is missing."""
import contextlib
import os
import pathlib
import re
import shutil
import subprocess
import sys
import tempfile
import xml.etree.ElementTree as tree

ROOT = pathlib.Path(__file__).resolve().parent.parent
sys.path.insert(0, str(ROOT / "tools"))
import waveform  # noqa: E402

FILES = ["examples/tank/case.json", "examples/tank/broken.txt"]
# At the end of each scan, and before the first; none where nothing tells it.
TANK = {
    "Raw": [None, 26000, 26000, 26000, 26000, -32768, -32768],
    "Request": [None, 0, 0, 0, 0, 0, 0],
    "Level": [0, 235, 470, 705, 940, 408, -122],
    "High": [0, 0, 0, 0, 1, 0, 0],
    "Low": [0, 0, 0, 0, 0, 0, 1],
    "Valve": [0, 0, 0, 0, 0, 0, 1],
    "Readings(0)": [0, 26000, 26000, 26000, 26000, -32768, -32768],
    "Readings(1)": [0, 0, 26000, 26000, 26000, 26000, -32768],
    "Readings(2)": [0, 0, 0, 26000, 26000, 26000, 26000],
    "Readings(3)": [0, 0, 0, 0, 26000, 26000, 26000],
    "Newest": [0, 1, 2, 3, 0, 1, 2],
    "requirement/a": [None, 0, 0, 0, 0, 1, 1],
    "requirement/b": [None, 1, 1, 1, 1, 1, 0],
}
WIRES = {"Request", "High", "Low", "Valve", "requirement/a", "requirement/b", "plcv_fails"}

# Structures, instances, arrays and data blocks, a trap in the second scan, values before the first that no line tells.
SHOWN = """PLCV 1
case t
scan 1
in in = 1
in arr[1].x = -1
inst.y = 300
"DB 1".run = 1
a = 1
b = 0
c = 0
scan 2
in in = 0
replay broken
scan 2
cause trap Index a.scl:7:4
"""
CASE = {"entry": "Demo", "pattern": {"kind": "between", "a": "", "b": "", "c": ""}, "sources": [{"file": "a.scl"}], "bind": {"k": 5}}
SOURCE = """(* VAR x : INT; *) FUNCTION_BLOCK F VAR_INPUT x : INT; END_VAR VAR_OUTPUT y : DINT := 7; END_VAR END_FUNCTION_BLOCK
FUNCTION_BLOCK Demo { a := 'b' }
VAR_INPUT in : BOOL; k : INT; arr : ARRAY[0..1] OF STRUCT w, x : INT; END_STRUCT; END_VAR
VAR inst : F; END_VAR // END_VAR
END_FUNCTION_BLOCK
DATA_BLOCK "DB 1" STRUCT run : BOOL; END_STRUCT BEGIN END_DATA_BLOCK
"""
OTHERS = {
    "in": [None, 1, 0],
    "arr(1)/x": [None, -1, -1],
    "inst/y": [7, 300, 300],
    "DB_1/run": [0, 1, 1],
    "requirement/a": [None, 1, None],
    "requirement/b": [None, 0, None],
    "requirement/c": [None, 0, None],
}


def read_vcd(text):
    """The values of each wire at each time step but the last, by scopes and names, and which have one bit."""
    names, scopes, values, wires = {}, [], {}, set()
    head, body = text.split("$enddefinitions $end\n")
    for line in head.split("\n"):
        words = line.split()
        if words[:1] == ["$scope"]:
            scopes.append(words[2])
        elif words[:1] == ["$upscope"]:
            scopes.pop()
        elif words[:1] == ["$var"]:
            name = "/".join([*scopes[1:], words[4]])
            names[words[3]] = (name, int(words[2]))
            values[name] = []
            if words[2] == "1":
                wires.add(name)
            elif words[5] != f"[{int(words[2]) - 1}:0]":
                raise ValueError(line)
    last = {}
    for step in re.split(r"^#\d+\n", body, flags=re.M)[1:-1]:
        for line in step.split("\n"):
            if line and line[0] in "01x":
                last[names[line[1:]][0]] = None if line[0] == "x" else int(line[0])
            elif line.startswith("b"):
                bits, name = line[1:].split(" ")
                name, width = names[name]
                value = None if bits == "x" else int(bits, 2)
                last[name] = value if value is None or value < 1 << width - 1 else value - (1 << width)
        for name in values:
            values[name].append(last[name])
    return values, wires


def lanes_in(text):
    """The paths of a diagram's lanes, and whether a scan is shaded."""
    space = "{http://www.w3.org/2000/svg}"
    root = tree.fromstring(text)
    lanes = [lane for lane in root.iter(f"{space}g") if lane.get("class", "").startswith("lane")]
    return [lane.find(f"{space}text").text for lane in lanes], len([r for r in root.iter(f"{space}rect") if r.get("class") == "fails"])


def run(*words):
    done = subprocess.run([sys.executable, str(ROOT / "tools/waveform.py"), *words], cwd=ROOT, stdout=subprocess.PIPE, stderr=subprocess.PIPE)
    return done.returncode, done.stdout.decode("utf-8"), done.stderr.decode("utf-8")


def is_taken_by_vcd2fst(text):
    """Whether `vcd2fst` reads the file, where it is installed."""
    if not shutil.which("vcd2fst"):
        return True
    with tempfile.TemporaryDirectory() as folder:
        file = pathlib.Path(folder, "wave.vcd")
        file.write_text(text, encoding="utf-8")
        return subprocess.run(["vcd2fst", file, f"{file}.fst"], stdout=subprocess.DEVNULL).returncode == 0


def rows():
    """What is answered, and what should be."""
    status, text, told = run(*FILES)
    yield (status, told), (0, "")
    values, wires = read_vcd(text)
    yield values, {"plcv_fails": [0] * 6 + [1], **TANK}
    yield wires, WIRES
    yield is_taken_by_vcd2fst(text), True
    status, text, told = run("--svg", *FILES)
    shown = [name.replace("(", "[").replace(")", "]").split("/")[-1] for name in TANK if name != "Request"]
    yield (status, *lanes_in(text)), (0, shown, 1)
    status, text, told = run("--svg", *FILES, "valve", "readings[1]", "A")
    yield (status, *lanes_in(text)), (0, ["Valve", "Readings[1]", "a"], 1)
    yield run("--svg", *FILES, "Pump"), (1, "", "waveform: no line of plcv show tells of Pump\n")
    yield run(FILES[0], FILES[0]), (8, "", "plcv: trace: line 1\n")

    with tempfile.TemporaryDirectory() as folder, contextlib.chdir(folder) if hasattr(contextlib, "chdir") else here(folder):
        pathlib.Path("a.scl").write_text(SOURCE, encoding="utf-8")
        shown = waveform.read_show(SHOWN, 3)
        lanes, cells = waveform.lanes_of(shown, CASE)
        values, wires = read_vcd(waveform.vcd(shown, lanes, cells))
        yield values, {"plcv_fails": [0, 0, 1], **OTHERS}
        yield {lane.path: lane.width for lane in lanes[:cells]}, {"in": 1, "arr[1].x": 16, "inst.y": 32, '"DB 1".run': 1}
        many = [waveform.Lane(f"v{n}", 1 + n % 2 * 15, 0, [at % (n + 2) for at in range(60)]) for n in range(20)]
        wide = waveform.Shown("t", [waveform.Scan()] * 60, ["replay kept", "scans 60"])
        yield lanes_in(waveform.svg(wide, many, 0)), ([f"v{n}" for n in range(20)], 0)


@contextlib.contextmanager
def here(folder):
    before = os.getcwd()
    os.chdir(folder)
    yield
    os.chdir(before)


def main():
    faults = 0
    for number, (answer, wanted) in enumerate(rows(), 1):
        if answer != wanted:
            faults += 1
            print(f"check-waveform: row {number}: {answer!r}, not {wanted!r}", file=sys.stderr)
    sys.exit(1 if faults else 0)


if __name__ == "__main__":
    main()
