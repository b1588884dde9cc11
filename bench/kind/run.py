#!/usr/bin/env python3
"""Times a decision by k-induction whose 64 refuted queries have one formula each, beside the solver alone on the same formulas.

Usage: run.py [seed ..] (1 to 5). Builds bench/kind/program.txt over pv_kind in a temporary copy, and needs `rt`. The formula has 1,000 random
clauses of three literals over 150 variables, which no values make hold. Prints for each seed the processor time of both, less that of a
run which only reads the formula, and their ratio, the decision's logs being checked and kept besides; the peaks of memory of both, and
of a decision with one such query, so that it shows that one solver's memory is held at a time; where `valgrind` is there also the
instructions of both and their ratio, which no load changes."""
import pathlib
import shutil
import sys
import tempfile

HERE = pathlib.Path(__file__).resolve().parent
sys.path.insert(0, str(HERE.parent))
sys.path.insert(0, str(HERE.parent / "solver"))
sys.dont_write_bytecode = True
from build import built  # noqa: E402
from formulas import random_clauses  # noqa: E402
from measure import instructions, machine, measured  # noqa: E402

VARIABLES = 150
CLAUSES = 1000
# Base of 1 to 63 and step(63) have the formula.
DEPTH = 63


class Decision:
    """The formula of a seed, decided by the program or solved alone."""

    def __init__(self, program, place, seed):
        self.program, self.formula = program, place / f"formula{seed}.cnf"
        self.formula.write_text(random_clauses(VARIABLES, seed, CLAUSES / VARIABLES))

    def words(self, mode, depth=DEPTH):
        return [self.program, self.formula, depth, mode]

    def run(self, mode, depth=DEPTH):
        """Seconds and MiB."""
        took, peak, said = measured(self.words(mode, depth))
        if mode != "read" and said.strip() != f"{depth + 1} refuted":
            sys.exit(f"{self.formula.name}: {mode}: {said}")
        return took, peak

    def compare(self, seed):
        """Prints what both take."""
        reading, _ = self.run("read")
        alone, peak_alone = self.run("alone")
        both, peak = self.run("decide")
        _, peak_one = self.run("decide", 0)
        print(f"seed {seed}: decided in {both - reading:.3f} s, the solver alone {alone - reading:.3f} s, "
              f"{(both - reading) / (alone - reading):.3f} times; {peak:.1f} MiB, the solver alone {peak_alone:.1f}, "
              f"a decision with one such query {peak_one:.1f}", flush=True)

    def count(self, seed):
        """Prints the instructions of both."""
        reading, alone, both = (instructions(self.words(mode)) for mode in ("read", "alone", "decide"))
        print(f"seed {seed}: {(both - reading) / 1e6:.0f} and {(alone - reading) / 1e6:.0f} million instructions, "
              f"{(both - reading) / (alone - reading):.3f} times", flush=True)


def main():
    seeds = list(map(int, sys.argv[1:])) or range(1, 6)
    machine()
    with tempfile.TemporaryDirectory() as folder:
        place = pathlib.Path(folder)
        program = built(place, "kind_bench", HERE / "program.txt")
        for seed in seeds:
            decision = Decision(program, place, seed)
            decision.compare(seed)
            if shutil.which("valgrind"):
                decision.count(seed)


if __name__ == "__main__":
    main()
