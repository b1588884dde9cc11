#!/usr/bin/env python3
"""Times `plcv recheck` on blocks and certificates of a size and of twice that size.

Usage: run.py [n]: blocks of n and 2n variables and assignments (10,000; a block has at most 20,000 cells), and certificates of
at least 2 and 4 MiB of one small block. Each certificate has a line for each literal that unit propagation finds, so its log goes through the
whole circuit. What the checker of logs takes is what the same certificate takes less than that whose first line is at fault: the
rest of the work is the same. The script `plcv` at the top builds the program where it is missing."""
import json
import pathlib
import subprocess
import sys
import tempfile

ROOT = pathlib.Path(__file__).resolve().parent.parent.parent
sys.path[:0] = [str(ROOT / "bench"), str(ROOT / "tools")]
sys.dont_write_bytecode = True
from certificate import Block, formula, words_of  # noqa: E402
from measure import compare, machine, measured  # noqa: E402

PROGRAM = ROOT / "crates" / "plcv" / "out" / "plcv"
MIB = 2**20
SATISFIED = "PLCV 1\ncase bench\npattern invariant\nverdict satisfied\nk 0\n"


def block(n):
    """A block of n variables and n assignments, each of which reads what the one before assigned, and an invariant that it keeps."""
    inputs, outputs = [f"in_{k:05}" for k in range(n // 2)], [f"out_{k:05}" for k in range(n - n // 2)]
    lines = [f"{outputs[0]} := ({inputs[0]} OR {outputs[0]}) AND NOT {inputs[1]};"]
    for k in range(1, n):
        first, second = inputs[k % len(inputs)], inputs[(7 * k + 3) % len(inputs)]
        lines.append(f"{outputs[k % len(outputs)]} := {outputs[(k - 1) % len(outputs)]} AND ({first} OR NOT {second});")
    rows = ["FUNCTION_BLOCK Bench", "VAR_INPUT", *(f"{name} : BOOL;" for name in inputs), "END_VAR", "VAR_OUTPUT"]
    rows += [*(f"{name} : BOOL;" for name in outputs), "END_VAR", "BEGIN", *lines, "END_FUNCTION_BLOCK"]
    return "\n".join(rows) + "\n", f"NOT ({outputs[(n - 1) % len(outputs)]} AND {inputs[1]})"


def propagated(clauses):
    """The lines of a log that unit propagation makes, literals and hints, the empty clause last."""
    where, ids, lines = {}, {}, []
    for number, clause in enumerate(clauses, 1):
        for literal in clause:
            where.setdefault(-literal, []).append(number)
    todo = []
    for number, clause in enumerate(clauses, 1):
        if len(clause) == 1 and clause[0] not in ids:
            ids[clause[0]] = number
            todo.append(clause[0])
    for literal in todo:
        for number in where.get(literal, []):
            clause = clauses[number - 1]
            left = [other for other in clause if -other not in ids]
            if len(left) > 1 or left and left[0] in ids:
                continue
            lines.append((left, [*(ids[-other] for other in clause if -other in ids), number]))
            if not left:
                return lines
            ids[left[0]] = len(clauses) + len(lines)
            todo.append(left[0])
    sys.exit("no proof by unit propagation")


def certificate(clauses, lines):
    """The certificate with these lines, each with the next id."""
    text = [f"PLCVCERT 1\nverdict satisfied 0\nquery step 0\nchain\nlog {len(lines)}\n"]
    for number, (literals, hints) in enumerate(lines, len(clauses) + 1):
        text.append(" ".join(map(str, [number, *literals, 0, *hints, 0])) + "\n")
    return "".join(text) + "end\n"


def filled(clauses, lines, size):
    """The certificate with its first line's clause said again and again, so that it has at least so many bytes."""
    literals, own = lines[0][0], len(clauses) + 1
    times, missing = 0, size - len(certificate(clauses, lines))
    while missing > 0:
        times += 1
        missing -= len(f"{own + times} {literals[0]} 0 {own} 0\n")
    moved = [[hint + times if hint > own else hint for hint in hints] for _, hints in lines[1:]]
    again = [(literals, [own])] * times
    return certificate(clauses, [lines[0], *again, *((line, hints) for (line, _), hints in zip(lines[1:], moved))])


def case_of(source, invariant):
    """The case of a source's block with this invariant."""
    return {
        "version": 1,
        "name": "bench",
        "sources": [{"file": str(source), "language": "scl"}],
        "entry": "Bench",
        "pattern": {"kind": "invariant", "a": invariant},
        "loopBound": 1,
        "depth": 0,
        "lemmas": 100000,
        "regionWords": 1000000,
        "reduce": [],
    }


def recheck(place, made, text):
    """The measured recheck of a block and a certificate, and of the certificate whose first line of the log has the id 0."""
    source, invariant = made
    (place / "source.scl").write_text(source)
    (place / "case.json").write_text(json.dumps(case_of(place / "source.scl", invariant)))
    lines = text.split("\n")
    lines[5] = "0 " + lines[5].split(" ", 1)[1]
    (place / "valid.txt").write_text(text)
    (place / "faulty.txt").write_text("\n".join(lines))
    valid = measured([PROGRAM, "recheck", place / "case.json", place / "valid.txt"], runs=20)
    faulty = measured([PROGRAM, "recheck", place / "case.json", place / "faulty.txt"], statuses=(8,), runs=20)
    if valid[2] != SATISFIED or faulty[2] != "plcv: certificate: line 6 BadId\n":
        sys.exit(valid[2] + faulty[2])
    return valid, faulty


def pair(place, name, rows):
    """Compares the rechecks of two blocks, each with its certificate."""
    found = []
    for made, text in rows:
        valid, faulty = recheck(place, made, text)
        label = f"source {len(made[0]) / MIB:.2f} MiB, certificate {len(text) / MIB:.2f} MiB"
        found.append((label, valid))
        print(f"{name}, {label}: the checker of logs takes {valid[0] - faulty[0]:.3f} s of {valid[0]:.3f} s")
    compare(name, *found)


def proved(n):
    """A block, the clauses of its formula, and the lines of its proof."""
    source, invariant = block(n)
    circuit = Block(source)
    clauses = formula(circuit, -circuit.expression(words_of(invariant)))
    return (source, invariant), clauses, propagated(clauses)


def main():
    n = int(sys.argv[1]) if len(sys.argv) > 1 else 10000
    # Builds the program, then answers that it was given no words.
    subprocess.run([ROOT / "plcv"], stdout=subprocess.DEVNULL)
    machine()
    with tempfile.TemporaryDirectory() as folder:
        place = pathlib.Path(folder)
        rows = []
        for size in n, 2 * n:
            made, clauses, lines = proved(size)
            rows.append((made, certificate(clauses, lines)))
            print(f"{size} variables and assignments: {len(clauses)} clauses, {len(lines)} lines of a log", flush=True)
        pair(place, f"{n} and {2 * n} variables and assignments", rows)
        made, clauses, lines = proved(100)
        pair(place, "a long log", [(made, filled(clauses, lines, size * MIB)) for size in (2, 4)])


if __name__ == "__main__":
    main()
