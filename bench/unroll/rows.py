#!/usr/bin/env python3
"""Times the same copies of loops as run.py, by the program of rows: it reads the parts, which takes most of the room of the first case.
Beside each run stands one with too great a bound, which reads and counts the same and copies nothing.

Usage: rows.py PROGRAM [n] (100,000). PROGRAM is pv_rows_flow as built (crates/pv_rows_flow/out/pv_rows_flow)."""
import pathlib
import sys
import tempfile

sys.path.insert(0, str(pathlib.Path(__file__).resolve().parent.parent))
sys.dont_write_bytecode = True
from measure import compare, machine, measured  # noqa: E402

TOO_MANY = 4_000_000
# how many loops, and how many turns each has
CASES = {"60 loops within one another": (60, 1), "one loop of 256 turns": (1, 256), "1,000 loops side by side": (1000, 10)}


def ranges(loops, turns, count):
    """First and last locations of loops that have about so many edges once they are copied, and how long the chain is that they are on."""
    if turns == 1:
        return [(i, count - loops - i - 1) for i in range(loops)], count - loops
    width = count // (loops * turns) - 1
    return [(i * width, (i + 1) * width - 1) for i in range(loops)], loops * width


def row(loops, turns, count, bound):
    held, length = ranges(loops, turns, count)
    edges = [(i, i + 1) for i in range(length)] + [(last, first) for first, last in held]
    loops_said = ", ".join(f"{first} {last} 1 {length + i}" for i, (first, last) in enumerate(held))
    edges_said = ", ".join(f"{a} {b}" for a, b in edges)
    return f"\npart timed\nshow sizes\nrow {bound} {length + 1} {length} | {loops_said} | {edges_said} | \n"


def main():
    program, n = sys.argv[1], int(sys.argv[2]) if len(sys.argv) > 2 else 100000
    machine()
    for name, (loops, turns) in CASES.items():
        for bound in (turns, TOO_MANY):
            rows = []
            for count in (n, 2 * n):
                with tempfile.NamedTemporaryFile("w") as text:
                    text.write(row(loops, turns, count, bound))
                    text.flush()
                    rows.append(measured(["sh", "-c", f"exec '{program}' < '{text.name}'"]))
            compare(name, *((run[2].strip(), run) for run in rows))


main()
