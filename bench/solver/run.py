#!/usr/bin/env python3
"""Times the solver beside minisat and cadical on the same formulas, and has the log of each refuted one checked.

Usage: run.py [program=FILE] [seeds=N] [KIND=SIZE,..].. with the kinds pigeons, random, adders, products, latches, counters and chain;
without a kind seeds=5 pigeons=7,8,9 random=150,200 adders=32,64 products=5 latches=10000 counters=100 chain=200000,400000. Builds the
program in a temporary copy of the crates, unless it is given one that was built so. Needs `rt`, a C compiler, and `minisat` and `cadical`
(Debian's packages). For each formula it prints the answer, processor times of whole processes (the least of five, of fewer where they are
long), numbers of conflicts (of the solver: the lines of its log, each of which came of a conflict), and the ratios. Where the answer is
Unsat, the log is checked by `Checker::check`, by `Checker::check_new`, and by lrat.c. Of the random formulas, whose conflicts are a
matter of luck where some values make them hold, only the sums over the seeds are printed, apart for those that hold and those that
don't."""
import pathlib
import re
import shutil
import subprocess
import sys
import tempfile

HERE = pathlib.Path(__file__).resolve().parent
sys.path.insert(0, str(HERE.parent))
sys.dont_write_bytecode = True
from build import built  # noqa: E402
from formulas import adders, chain, counters, latches, pigeons, products, random_clauses  # noqa: E402
from measure import machine, measured  # noqa: E402

OTHERS = {
    "minisat": (r"conflicts\s*:\s*(\d+)", r"^UNSATISFIABLE$"),
    "cadical": (r"^c conflicts:\s*(\d+)", r"^s UNSATISFIABLE$"),
}


class Row:
    """What each solver took: seconds and conflicts, by its name."""

    def __init__(self):
        self.seconds, self.conflicts = {}, {}

    def add(self, name, seconds, conflicts):
        self.seconds[name] = self.seconds.get(name, 0) + seconds
        self.conflicts[name] = self.conflicts.get(name, 0) + conflicts

    def join(self, other):
        for name, seconds in other.seconds.items():
            self.add(name, seconds, other.conflicts[name])

    def text(self):
        parts = [f"{name} {self.seconds[name]:.3f} s, {self.conflicts[name]} conflicts" for name in self.seconds]
        for name in OTHERS:
            if name in self.seconds:
                time = self.seconds["plcv"] / self.seconds[name]
                conflicts = self.conflicts["plcv"] / max(1, self.conflicts[name])
                parts.append(f"beside {name} {time:.1f} times the time, {conflicts:.2f} times the conflicts")
        return "; ".join(parts)


def timed(command, statuses=(0,)):
    """Seconds and what was printed: the least of five runs, of three where one takes a tenth of a second, one where it takes ten."""
    took, _, said = measured(command, statuses, runs=1)
    if took < 10:
        more, _, said = measured(command, statuses, runs=4 if took < 0.1 else 2)
        took = min(took, more)
    return took, said


def other(name, formula):
    """Seconds, conflicts and whether no values make the formula hold, of another solver."""
    conflicts, refuted = OTHERS[name]
    took, said = timed([name, formula], statuses=(10, 20))
    # (without a conflict cadical prints no number of them)
    count = re.search(conflicts, said, re.M)
    return took, int(count.group(1)) if count else 0, bool(re.search(refuted, said, re.M))


def said_by(command):
    return subprocess.run(list(map(str, command)), capture_output=True, text=True, check=True).stdout.splitlines()


def check_log(program, plain, formula, lines):
    """Has the log of a refuted formula checked."""
    for mode in ("check", "new"):
        verdict = said_by([program, formula, mode])[1].split()[0]
        if verdict != "Accepted":
            sys.exit(f"{formula}: {mode}: {verdict}")
    log = formula.with_suffix(".lrat")
    log.write_text("\n".join(said_by([program, formula, "log"])[1:]) + "\n")
    if said_by([plain, formula, log]) != [f"accepted {lines}"]:
        sys.exit(f"{formula}: the plain checker refuses the log")
    log.unlink()


def solved(programs, formula):
    """The row of a formula, and whether no values make it hold."""
    program, plain = programs
    row = Row()
    took, said = timed([program, formula, "solve"])
    answer, _, lines = said.split()
    refuted = answer == "Unsat"
    row.add("plcv", took, int(lines))
    for name in filter(shutil.which, OTHERS):
        took, conflicts, theirs = other(name, formula)
        row.add(name, took, conflicts)
        if theirs != refuted:
            sys.exit(f"{formula}: {answer}, {name} answers otherwise")
    if refuted:
        check_log(program, plain, formula, lines)
    return row, refuted


def one(programs, place, name, text):
    """A formula by itself."""
    formula = place / "formula.cnf"
    formula.write_text(text)
    row, refuted = solved(programs, formula)
    print(f"{name}, {'Unsat' if refuted else 'Sat'}: {row.text()}", flush=True)


def many(programs, place, variables, seeds):
    """Random formulas with these seeds: the sums of those that hold and of those that don't."""
    sums, counts = {True: Row(), False: Row()}, {True: 0, False: 0}
    for seed in range(1, seeds + 1):
        formula = place / "formula.cnf"
        formula.write_text(random_clauses(variables, seed))
        row, refuted = solved(programs, formula)
        sums[refuted].join(row)
        counts[refuted] += 1
    for refuted, word in ((True, "Unsat"), (False, "Sat")):
        if counts[refuted]:
            print(f"{counts[refuted]} random formulas of {variables} variables, {word}: {sums[refuted].text()}", flush=True)


SIZES = {
    "pigeons": [7, 8, 9],
    "random": [150, 200],
    "adders": [32, 64],
    "products": [5],
    "latches": [10000],
    "counters": [100],
    "chain": [200000, 400000],
}

# What a formula of a kind is called, and its text.
SINGLE = {
    "pigeons": (lambda holes: f"{holes} pigeons in {holes - 1} holes", lambda holes: pigeons(holes - 1)),
    "adders": (lambda width: f"two adders of {width} bits", adders),
    "products": (lambda width: f"two products of {width} bits", products),
    "latches": (lambda count: f"a step of {count} latches", latches),
    "counters": (lambda count: f"a step of {count} counters", counters),
    "chain": (lambda variables: f"a chain of {variables} variables", chain),
}


def asked(words):
    """The program that the words name, the number of seeds, and the sizes of each kind that they name, of all where they name none."""
    given = dict(word.split("=") for word in words)
    program = given.pop("program", None)
    seeds = int(given.pop("seeds", 5))
    return program, seeds, {name: list(map(int, sizes.split(","))) for name, sizes in given.items()} or SIZES


def run_all(programs, place, seeds, sizes):
    for kind, (name, text) in SINGLE.items():
        for size in sizes.get(kind, []):
            one(programs, place, name(size), text(size))
    for variables in sizes.get("random", []):
        many(programs, place, variables, seeds)


def main():
    program, seeds, sizes = asked(sys.argv[1:])
    machine()
    with tempfile.TemporaryDirectory() as folder:
        place = pathlib.Path(folder)
        program = pathlib.Path(program).resolve() if program else built(place, "solver_bench", HERE / "program.txt")
        plain = place / "lrat"
        subprocess.run(["cc", "-O2", "-o", plain, HERE / "lrat.c"], check=True)
        run_all((program, plain), place, seeds, sizes)


if __name__ == "__main__":
    main()
