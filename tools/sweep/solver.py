#!/usr/bin/env python3
"""Fails each allocation of the solver's program in turn, one in a run, over formulas that hold for some values and that hold for none.

Usage: solver.py [program=FILE]. Builds the program of bench/solver in a temporary copy of the crates, unless it is given one that was built
so. Each run has to end with status 1 and no more than the first part of what the program prints where memory is ample, or with all of it.
Needs `rt` and gcc. It isn't part of the gate. Prints a line for each formula, and ends with status 1 where a run answered otherwise."""
import pathlib
import sys
import tempfile

HERE = pathlib.Path(__file__).resolve().parent
BENCH = HERE.parent.parent / "bench"
sys.path[:0] = map(str, (HERE, BENCH, BENCH / "solver"))
sys.dont_write_bytecode = True
from build import built  # noqa: E402
from formulas import chain, latches, pigeons, random_clauses  # noqa: E402
from run import compiled, swept  # noqa: E402

FORMULAS = {
    "a chain": chain(40),
    "latches": latches(5),
    "pigeons": pigeons(4),
    "random clauses": random_clauses(40, 1),
}


def main():
    given = dict(word.split("=") for word in sys.argv[1:])
    right = True
    with tempfile.TemporaryDirectory() as folder:
        place = pathlib.Path(folder)
        program = given.get("program")
        program = pathlib.Path(program).resolve() if program else built(place, "solver_bench", BENCH / "solver" / "program.txt")
        library = compiled(folder)
        for name, text in FORMULAS.items():
            formula = place / "formula.cnf"
            formula.write_text(text)
            right = swept(program, library, [formula, "solve"], name, failed=1) and right
    sys.exit(not right)


main()
