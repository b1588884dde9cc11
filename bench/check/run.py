#!/usr/bin/env python3
"""Times `plcv check` and `plcv recheck` beside minisat and cadical on the same queries, and beside ABC on the same steps.

Usage: run.py [n]: n latches (1,000) in groups of four, a shift register whose first bit can't be set, at depth 4: the requirement holds by
k = 3; the same with one group whose first bit can be set, which fails at scan 4; a block of 20 n cells, whose requirement holds by k = 0;
and examples/conveyor. The solvers get each query that `check` asks as a text of its own, in its order, made here by And gates that are
folded and shared; their times are sums, and each process costs one to two milliseconds. ABC gets the step as an AIGER text: `pdr` where the
requirement holds, `bmc3` where it doesn't. It needs minisat, cadical and berkeley-abc of Debian; what isn't there is left out. The script
`plcv` at the top builds the program where it is missing."""
import json
import pathlib
import shutil
import subprocess
import sys
import tempfile

ROOT = pathlib.Path(__file__).resolve().parent.parent.parent
sys.path[:0] = [str(ROOT / "bench"), str(ROOT / "tools")]
sys.dont_write_bytecode = True
from certificate import TRUE, Block, Gates, case_of, read, words_of  # noqa: E402
from measure import machine, measured  # noqa: E402

PROGRAM = ROOT / "crates" / "plcv" / "out" / "plcv"
SOLVERS = {"minisat": ["minisat", "-verb=0"], "cadical": ["cadical", "-q"]}
DEPTH = 4


class Frames(Block):
    """Scans of a block one after another, from the start or from any state."""

    def __init__(self, text, from_start):
        self.name, self.words = "the source", words_of(text)
        names, self.lines = self.declarations()
        inputs = self.words[self.words.index("VAR_INPUT") + 1:]
        self.inputs = [word.lower() for word in inputs[:inputs.index("END_VAR")] if word.lower() in names]
        self.gates = Gates(0)
        self.kept = [name for name in names if name not in self.inputs]
        self.cells = {name: -TRUE if from_start else self.free() for name in self.kept}

    def free(self):
        self.gates.nodes.append(("input",))
        return len(self.gates.nodes)

    def scan(self, fails):
        """One scan more, and the literal of its failing."""
        self.cells.update((name, self.free()) for name in self.inputs)
        for target, value in self.lines:
            self.cells[target] = self.expression(value)
        return -self.expression(words_of(fails))


def gates_of(frames):
    return [(number, *node) for number, node in enumerate(frames.gates.nodes, 1) if len(node) == 2]


def query(text, invariant, kind, number):
    """base(number): the scan of this number, from 1, is the first that fails; step(number): it fails behind so many good ones."""
    frames = Frames(text, kind == "base")
    ends = [frames.scan(invariant) for _ in range(number if kind == "base" else number + 1)]
    clauses = [[TRUE]]
    for gate, a, b in gates_of(frames):
        clauses += [[-gate, a], [-gate, b], [gate, -a, -b]]
    clauses += [[-end] for end in ends[:-1]] + [[ends[-1]]]
    lines = [" ".join(map(str, [*clause, 0])) for clause in clauses]
    variables = max(abs(literal) for clause in clauses for literal in clause)
    return f"p cnf {variables} {len(clauses)}\n" + "\n".join(lines) + "\n"


def leb(number):
    """A number in groups of seven bits, the least first, as AIGER has it."""
    out = bytearray()
    while number > 127:
        out.append(number & 127 | 128)
        number >>= 7
    return bytes(out + bytes([number]))


def aiger(text, invariant):
    """The step as a binary AIGER text: latches that begin with 0, and an output that is true where a scan fails."""
    frames = Frames(text, False)
    latches = [frames.cells[name] for name in frames.kept]
    first = len(frames.gates.nodes) + 1
    fails = frames.scan(invariant)
    ands = gates_of(frames)
    order = [*range(first, first + len(frames.inputs)), *latches, *(gate for gate, _, _ in ands)]
    place = {TRUE: 0} | {node: number for number, node in enumerate(order, 1)}

    def literal(of):
        return 2 * place[abs(of)] + ((of < 0) != (abs(of) == TRUE))

    out = [f"aig {len(order)} {len(frames.inputs)} {len(latches)} 1 {len(ands)}\n".encode()]
    out += [f"{literal(frames.cells[name])}\n".encode() for name in frames.kept]
    out += [f"{literal(fails)}\n".encode()]
    for gate, a, b in ands:
        high, low = sorted((literal(a), literal(b)), reverse=True)
        out += [leb(literal(gate) - high), leb(high - low)]
    return b"".join(out)


def registers(n, is_open):
    """n latches in groups of four; the first bit of the last group can be set where it is open. That a last bit is set is gathered in one cell,
    as an expression nests at most 64 deep."""
    groups = range(n // 4)
    rows = ["FUNCTION_BLOCK Bench", "VAR_INPUT", *(f"x_{g:04} : BOOL;" for g in groups), "END_VAR", "VAR", "bad : BOOL;"]
    rows += [*(f"{name}_{g:04} : BOOL;" for g in groups for name in "abcd"), "END_VAR", "BEGIN"]
    for g in groups:
        first = f"x_{g:04}" if is_open and g == n // 4 - 1 else f"a_{g:04} AND x_{g:04}"
        rows += [f"d_{g:04} := c_{g:04};", f"c_{g:04} := b_{g:04};", f"b_{g:04} := a_{g:04};", f"a_{g:04} := {first};"]
    rows += ["bad := d_0000;", *(f"bad := bad OR d_{g:04};" for g in groups if g)]
    return "\n".join([*rows, "END_FUNCTION_BLOCK"]) + "\n", "NOT bad"


def chain(n):
    """A block of n cells; each assignment reads what the one before assigned."""
    inputs, outputs = [f"in_{k:05}" for k in range(n // 2)], [f"out_{k:05}" for k in range(n - n // 2)]
    lines = [f"{outputs[0]} := ({inputs[0]} OR {outputs[0]}) AND NOT {inputs[1]};"]
    for k in range(1, len(outputs)):
        lines.append(f"{outputs[k]} := {outputs[k - 1]} AND ({inputs[k % len(inputs)]} OR NOT {inputs[(7 * k + 3) % len(inputs)]});")
    rows = ["FUNCTION_BLOCK Bench", "VAR_INPUT", *(f"{name} : BOOL;" for name in inputs), "END_VAR", "VAR_OUTPUT"]
    rows += [*(f"{name} : BOOL;" for name in outputs), "END_VAR", "BEGIN", *lines, "END_FUNCTION_BLOCK"]
    return "\n".join(rows) + "\n", f"NOT ({outputs[-1]} AND {inputs[1]})"


def case(place, text, invariant):
    (place / "source.scl").write_text(text)
    made = {
        "version": 1,
        "name": "bench",
        "sources": [{"file": str(place / "source.scl"), "language": "scl"}],
        "entry": "Bench",
        "pattern": {"kind": "invariant", "a": invariant},
        "loopBound": 1,
        "depth": DEPTH,
        "lemmas": 100000,
        "regionWords": 10000000,
        "reduce": [],
        "certificate": str(place / "certificate.txt"),
    }
    (place / "case.json").write_text(json.dumps(made))
    return place / "case.json"


def queries(report):
    """The queries that a check asked, by its report: step(0), base(1), step(1), base(2) and so on end with the one that decided."""
    words = dict(line.split(" ", 1) for line in report.splitlines() if line.startswith(("verdict", "k ", "scan ")))
    if words["verdict"] == "violated":
        last = int(words["scan"])
        return [query for k in range(last) for query in (("step", k), ("base", k + 1))]
    last = int(words["k"])
    return [("step", 0)] + [query for k in range(1, last + 1) for query in (("base", k), ("step", k))]


def solved(place, name, texts):
    """The sum of what a solver takes for the texts."""
    total = 0
    for number, text in enumerate(texts):
        (place / f"{number}.cnf").write_text(text)
        total += measured([*SOLVERS[name], place / f"{number}.cnf"], statuses=(10, 20), runs=3)[0]
    return total


def abc(place, text, invariant, verdict):
    """What ABC takes for the step, and its last line."""
    (place / "step.aig").write_bytes(aiger(text, invariant))
    command = "pdr" if verdict == "satisfied" else f"bmc3 -F {DEPTH}"
    took, _, said = measured(["berkeley-abc", "-q", f"read_aiger {place / 'step.aig'}; {command}"], runs=3)
    return took, said.strip().splitlines()[-1:]


def row(place, name, text, invariant, entry=None):
    """What each program takes for one case."""
    asked = case(place, text, invariant)
    if entry:
        made = json.loads(asked.read_text())
        made["entry"] = entry
        asked.write_text(json.dumps(made))
    took, peak, report = measured([PROGRAM, "check", asked], statuses=(0, 1, 2), runs=5)
    again = measured([PROGRAM, "recheck", asked, place / "certificate.txt"], statuses=(0, 1, 2), runs=5)
    if again[2] != report:
        sys.exit(f"recheck answers otherwise:\n{report}{again[2]}")
    verdict = report.split("verdict ", 1)[1].split()[0]
    print(f"{name}: {verdict}, {' '.join(f'{kind}({k})' for kind, k in queries(report))}")
    print(f"  check {took:.3f} s, {peak:.1f} MiB; recheck {again[0]:.3f} s, {again[1]:.1f} MiB: {again[0] / took:.2f} times")
    texts = [query(text, invariant, *asked) for asked in queries(report)]
    for solver in SOLVERS:
        if shutil.which(solver):
            other = solved(place, solver, texts)
            print(f"  {solver} {other:.3f} s: check takes {took / other:.2f} times")
    if shutil.which("berkeley-abc"):
        other, said = abc(place, text, invariant, verdict)
        print(f"  abc {other:.3f} s: check takes {took / other:.2f} times ({' '.join(said)})", flush=True)


def main():
    n = int(sys.argv[1]) if len(sys.argv) > 1 else 1000
    if not PROGRAM.exists():
        subprocess.run([ROOT / "plcv", "--help"], check=False, stdout=subprocess.DEVNULL)
    machine()
    with tempfile.TemporaryDirectory() as folder:
        place = pathlib.Path(folder)
        row(place, f"{n} latches that hold", *registers(n, False))
        row(place, f"{n} latches that don't", *registers(n, True))
        row(place, f"{20 * n} cells", *chain(20 * n))
        folder = ROOT / "examples" / "conveyor"
        made = json.loads((folder / "case.json").read_text())
        row(place, "examples/conveyor", read(ROOT / made["sources"][0]["file"]), made["pattern"]["a"], made["entry"])


if __name__ == "__main__":
    main()
