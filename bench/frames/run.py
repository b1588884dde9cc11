#!/usr/bin/env python3
"""Times the pushing of the formulas of step(0) and base(4) over circuits of n and 2n gates, less the making of the circuit, after which
`base 0` stops, and the putting of their clauses into a region, less all that comes before; and asks minisat, cadical and z3 of the texts
of small ones.

Usage: run.py [n] (1,000,000). Builds bench/frames/program.txt over pv_step, pv_frames and pv_region in a temporary copy, and needs `rt`;
of the other solvers those that are there. Where `valgrind` is there, it prints the instructions too, at a tenth of n: they don't grow
with what else runs."""
import pathlib
import shutil
import subprocess
import sys
import tempfile

HERE = pathlib.Path(__file__).resolve().parent
sys.path.insert(0, str(HERE.parent))
sys.dont_write_bytecode = True
from build import built  # noqa: E402
from measure import instructions, machine, measured  # noqa: E402

# the words of small formulas: from the start and from any state z can become false, but not what always holds
ASKED = [(how, kind, number) for how in ("text", "held") for kind, number in (("step", 0), ("base", 1), ("base", 4), ("step", 3))]


def before(how, kind, number):
    """The words of the run which does all but the part that is timed."""
    return ("formula", "base", 0) if how == "formula" else ("formula", kind, number)


def pushed(program, how, kind, number, count):
    """Seconds and MiB of a part, less the seconds of what comes before it."""
    took, peak, said = measured([program, how, kind, number, count])
    earlier, _, _ = measured([program, *before(how, kind, number), count])
    return took - earlier, peak, said.strip()


def compare(program, how, kind, number, n):
    """Prints what a part takes at n and 2n gates."""
    one, two = (pushed(program, how, kind, number, count) for count in (n, 2 * n))
    for count, (took, peak, said) in ((n, one), (2 * n, two)):
        print(f"{how}, {kind}({number}), {count} gates: {took:.3f} s, {peak:.1f} MiB, {said}")
    print(f"{how}, {kind}({number}): {two[0] / one[0]:.2f} times the time, {two[1] / one[1]:.2f} times the memory", flush=True)


def count(program, how, kind, number, n):
    """Prints the instructions of a part at n and 2n gates."""
    few, many = (instructions([program, how, kind, number, gates]) - instructions([program, *before(how, kind, number), gates])
                 for gates in (n, 2 * n))
    print(f"{how}, {kind}({number}): {few / n:.0f} and {many / (2 * n):.0f} instructions a gate, {many / few:.2f} times", flush=True)


def ask(program, place, how, kind, number):
    """Asks the other solvers of a small formula, and prints what they answer."""
    text = subprocess.run([program, how, kind, str(number), "30"], capture_output=True, text=True, check=True).stdout
    file = pathlib.Path(place) / "query.cnf"
    file.write_text(text)
    for solver in filter(shutil.which, ("minisat", "cadical", "z3")):
        said = subprocess.run([solver, str(file)], capture_output=True, text=True).stdout.upper()
        answer = "Unsat" if "UNSAT" in said else "Sat" if "SAT" in said else "neither"
        if answer != ("Unsat" if how == "held" else "Sat"):
            sys.exit(f"{how}, {kind}({number}): {solver} answers {answer}")
        print(f"{how}, {kind}({number}), {text.splitlines()[0]}: {solver} {answer}", flush=True)


def main():
    n = int(sys.argv[1]) if len(sys.argv) > 1 else 1000000
    machine()
    with tempfile.TemporaryDirectory() as place:
        program = built(place, "frames_bench", HERE / "program.txt")
        for how in ("formula", "region"):
            for kind, number in (("step", 0), ("base", 4)):
                compare(program, how, kind, number, n)
                if shutil.which("valgrind"):
                    count(program, how, kind, number, n // 10)
        for how, kind, number in ASKED:
            ask(program, place, how, kind, number)


if __name__ == "__main__":
    main()
