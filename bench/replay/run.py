#!/usr/bin/env python3
"""Times `plcv replay`, and `plcv show`, on blocks and traces of a size and of twice that size, and beside C; also on n/2 and n fields
of a data block, outputs of an instance and arguments of a call.

Usage: run.py [n [scans]]: blocks of n and 2n variables (10,000) and traces of so many and twice so many scans (100,000). A block
has at most 20,000 cells, so n is at most 10,000. The script `plcv` at the top builds the program where it is missing.
`show` is timed on the same traces as `replay`, with inputs that change in each scan and that don't, where it prints two lines a scan.
The last rows are the blocks of bench/scans, in SCL and STL, by the whole command and beside the same blocks in C (gcc -O1): reading the
trace counts with the scans. Where `valgrind` is there also the instructions of replays whose cells lie near each other and far."""
import importlib.util
import json
import pathlib
import shutil
import subprocess
import sys
import tempfile

ROOT = pathlib.Path(__file__).resolve().parent.parent.parent
sys.path.insert(0, str(ROOT / "bench"))
sys.dont_write_bytecode = True
from measure import compare, instructions, machine, measured  # noqa: E402

PROGRAM = ROOT / "crates" / "plcv" / "out" / "plcv"
MIB = 2**20


def block(inputs, outputs, body):
    """A function block of these variables."""
    lines = ["FUNCTION_BLOCK Bench", "VAR_INPUT"]
    lines += [f"  {name} : BOOL;" for name in inputs]
    lines += ["END_VAR", "VAR_OUTPUT"]
    lines += [f"  {name} : BOOL;" for name in outputs]
    return "\n".join(lines) + f"\nEND_VAR\nBEGIN\n{body}END_FUNCTION_BLOCK\n"


def variables(n):
    """The names of n variables, a third of them inputs, as long for 2n as for n."""
    return [f"in_{k:05}" for k in range(n // 3)], [f"out_{k:05}" for k in range(n - n // 3)]


def mixed(n):
    """A block of n variables and n assignments that read three of them."""
    inputs, outputs = variables(n)
    names = inputs + outputs
    body = "".join(
        f"  {outputs[k % len(outputs)]} := {names[k * 7919 % n]} AND NOT ({names[k * 104729 % n]} OR {names[k * 31 % n]});\n"
        for k in range(n)
    )
    return block(inputs, outputs, body), len(inputs)


def full(n, size, reads):
    """A source of about so many bytes, whose block has n cells: each is declared, and what is left goes to assignments that read three."""
    inputs, outputs = variables(n)
    names = inputs + outputs
    room, lines = size - len(block(inputs, outputs, "")), []
    for k in range(size):
        a, b, c = (names[at % n] for at in reads(k))
        line = f"  {outputs[k % len(outputs)]} := {a} AND NOT ({b} OR {c});\n"
        room -= len(line)
        if room < 0:
            break
        lines.append(line)
    return block(inputs, outputs, "".join(lines)), len(inputs)


def chain(size):
    """A source of about so many bytes whose assignments each read what the one before assigned."""
    outputs = [f"v{k}" for k in range(1000)]
    lines = [f"{outputs[k]} := {outputs[k - 1]} AND NOT (b OR c);\n" for k in range(1000)]
    turn = "".join(lines)
    room = size - len(block(["b", "c"], outputs, ""))
    body = turn * (room // len(turn))
    return block(["b", "c"], outputs, body), 2


def dense(size):
    """A source of exactly so many bytes with as many tokens as it holds."""
    room = size - len(block(["b"], ["a"], ""))
    return block(["b"], ["a"], "a:=b;" * (room // 5) + " " * (room % 5)), 1


def lines_of(n, form):
    """A line for each of n names, with the next but some."""
    return "".join(form.format(k, (k * 7919 + 1) % n) for k in range(n))


def data_block(n):
    """A block that assigns each of the n fields of a data block another one."""
    declared = lines_of(n, "f{0:05} : INT;\n")
    held = f"DATA_BLOCK d STRUCT\n{declared}END_STRUCT BEGIN END_DATA_BLOCK\n"
    return held + block(["b"], ["a"], lines_of(n, "d.f{0:05} := d.f{1:05};\n")), 1


def instance(n):
    """A block that reads each of the n outputs of an instance."""
    declared = lines_of(n, "f{0:05} : BOOL;\n")
    held = f"FUNCTION_BLOCK Held VAR_OUTPUT\n{declared}END_VAR BEGIN END_FUNCTION_BLOCK\n"
    own = block(["b"], ["a"], lines_of(n, "a := x.f{1:05};\n")).replace("BEGIN", "VAR x : Held; END_VAR BEGIN")
    return held + own, 1


def call(n):
    """A block that calls an instance with n arguments."""
    declared = lines_of(n, "f{0:05} : BOOL;\n")
    held = f"FUNCTION_BLOCK Held VAR_INPUT\n{declared}END_VAR BEGIN END_FUNCTION_BLOCK\n"
    given = ",\n".join(f"f{k * 7919 % n:05} := b" for k in range(n))
    return held + block(["b"], ["a"], f"x({given});\n").replace("BEGIN", "VAR x : Held; END_VAR BEGIN"), 1


def parentheses(size):
    """A source of exactly so many bytes, nearly all of them opening parentheses."""
    room = size - len(block(["b"], ["a"], "a:=;"))
    return block(["b"], ["a"], "a:=" + "(" * room + ";"), 1


def case_of(source, language="scl", bound=1):
    """The case of a source's block with an invariant that always holds."""
    return {
        "version": 1,
        "name": "bench",
        "sources": [{"file": str(source), "language": language}],
        "entry": "Bench",
        "pattern": {"kind": "invariant", "a": "TRUE"},
        "loopBound": bound,
        "depth": 0,
        "lemmas": 100000,
        "regionWords": 1000000,
        "reduce": [],
    }


def trace_of(inputs, scans, changing=True):
    """A trace of so many scans, whose inputs change in each, or in none."""
    rows = ["scan" + "".join(f" {(k + row * changing) % 2}" for k in range(inputs)) + "\n" for row in range(2)]
    return "PLCVTRACE 1\nparams\n" + "".join(rows) * (scans // 2) + rows[0] * (scans % 2) + "end\n"


def write(place, made, scans):
    """Writes the files of a replay of so many scans of a source with so many inputs; the source and the trace, and the command."""
    source, inputs = made
    trace = trace_of(inputs, scans)
    (place / "source.scl").write_text(source)
    (place / "trace.txt").write_text(trace)
    (place / "case.json").write_text(json.dumps(case_of(place / "source.scl")))
    return source, trace, [PROGRAM, "replay", place / "case.json", place / "trace.txt"]


def replay(place, made, scans):
    """The measured replay of so many scans of a source with so many inputs, and the MiB of source and trace."""
    source, trace, command = write(place, made, scans)
    wanted = f"PLCV 1\ncase bench\npattern invariant\nreplay kept\nscans {scans}\n"
    if "((((" in source:
        # None of them is closed where the statement ends.
        before = source[:source.rindex(";")].split("\n")
        wanted = f"plcv: {place / 'source.scl'}:{len(before)}:{len(before[-1]) + 1}: Syntax\n"
    found = measured(command, statuses=(0, 3))
    if found[2] != wanted:
        sys.exit(found[2])
    return found, len(source) / MIB, len(trace) / MIB


def pair(place, name, made, scans):
    """Compares two replays, of the two sources and the two numbers of scans."""
    rows = []
    for source, count in zip(made, scans):
        found, of_source, of_trace = replay(place, source, count)
        rows.append((f"source {of_source:.2f} MiB, {count} scans in {of_trace:.2f} MiB", found))
    compare(name, *rows)


def count(place, name, made):
    """Compares the instructions of replays of one scan of two sources, which no load changes."""
    one, two = (instructions(write(place, source, 1)[2]) for source in made)
    print(f"{name}: {two / one:.2f} times the instructions, {one / 1e6:.0f} and {two / 1e6:.0f} million", flush=True)


def shown(place, made, scans, changing):
    """Compares `plcv show` on so many and twice so many scans, and tells how many times the time of `plcv replay` it takes."""
    source, inputs = made
    (place / "source.scl").write_text(source)
    (place / "case.json").write_text(json.dumps(case_of(place / "source.scl")))
    found, times = [], []
    for count in scans, 2 * scans:
        (place / "trace.txt").write_text(trace_of(inputs, count, changing))
        show, replay = (measured([PROGRAM, command, place / "case.json", place / "trace.txt"]) for command in ("show", "replay"))
        if not show[2].endswith(f"replay kept\nscans {count}\n"):
            sys.exit(show[2][-200:])
        found.append((f"{count} scans, {len(show[2]) / MIB:.1f} MiB printed", show))
        times.append(show[0] / replay[0])
    name = f"show, inputs {'change' if changing else 'stay'}"
    compare(name, *found)
    print("{}: {:.2f} and {:.2f} times replay's time".format(name, *times), flush=True)


def beside_c(place, scans, scans_of_c, case, count):
    """Prints the assignments a second of a block of bench/scans by the whole command, and how many times the C program's time."""
    name, block_made = case.__name__, case()
    source = place / f"{name}.{block_made.language}"
    source.write_text(block_made.text)
    (place / "case.json").write_text(json.dumps(case_of(source, block_made.language, scans.SIZE)))
    found = []
    for number in (2, count, 2 * count):
        (place / "trace.txt").write_text(trace_of(scans.INPUTS, number))
        found.append(measured([PROGRAM, "replay", place / "case.json", place / "trace.txt"]))
        if found[-1][2] != f"PLCV 1\ncase bench\npattern invariant\nreplay kept\nscans {number}\n":
            sys.exit(found[-1][2])
    plain = scans.compiled(place, name, block_made.c)
    c_none, c_many = (measured([plain, number]) for number in (0, scans_of_c))
    took, c_took = found[1][0] - found[0][0], (c_many[0] - c_none[0]) * count / scans_of_c
    rates = (block_made.assignments * count / t / 1e6 for t in (took, c_took))
    print("{}: {:.1f} and {:.0f} million assignments a second, {:.1f} times the C program's time".format(name, *rates, took / c_took), flush=True)
    compare(name, (f"{count} scans", found[1]), (f"{2 * count} scans", found[2]))


def scans_module():
    """The script bench/scans/run.py."""
    spec = importlib.util.spec_from_file_location("scans", ROOT / "bench" / "scans" / "run.py")
    module = importlib.util.module_from_spec(spec)
    spec.loader.exec_module(module)
    return module


def main():
    n = int(sys.argv[1]) if len(sys.argv) > 1 else 10000
    scans = int(sys.argv[2]) if len(sys.argv) > 2 else 100000
    # Builds the program, then answers that it was given no words.
    subprocess.run([ROOT / "plcv"], stdout=subprocess.DEVNULL)
    machine()
    with tempfile.TemporaryDirectory() as folder:
        place = pathlib.Path(folder)
        pair(place, f"{n} and {2 * n} variables and assignments", [mixed(n), mixed(2 * n)], [10, 10])
        for make in data_block, instance, call:
            pair(place, f"{make.__name__}, {n // 2} and {n}", [make(n // 2), make(n)], [1, 1])
        for make in chain, dense, parentheses:
            pair(place, make.__name__, [make(2 * MIB), make(4 * MIB)], [2, 2])
        for name, reads in ("near", lambda k: (k, k + 1, k + 2)), ("far", lambda k: (k * 7919, k * 104729, k * 31)):
            made = [full(n, 2 * MIB, reads), full(2 * n, 4 * MIB, reads)]
            pair(place, f"{n} and {2 * n} cells in 2 and 4 MiB, {name} ones read", made, [1, 1])
            if shutil.which("valgrind"):
                count(place, f"{name} ones read", made)
        pair(place, "30 variables and assignments", [mixed(30)] * 2, [scans, 2 * scans])
        for changing in True, False:
            shown(place, mixed(30), scans, changing)
        blocks = scans_module()
        for case in blocks.CASES:
            beside_c(place, blocks, 20 * scans, case, scans // 5)


main()
