#!/usr/bin/env python3
"""Times the check that lines are new, against n clauses and 2n.

Usage: run.py [n] (200,000). Builds the program in a temporary copy of the crates, and needs `rt`. Processor time of a line: of `check_new`
less that of `check`, less what both take without lines (the least of three runs each). Once the formula has 1,000 variables, so
that each literal stands in more clauses where there are more, and once a quarter of n."""
import pathlib
import sys
import tempfile

HERE = pathlib.Path(__file__).resolve().parent
sys.path.insert(0, str(HERE.parent))
sys.dont_write_bytecode = True
from build import built  # noqa: E402
from measure import machine, measured  # noqa: E402

LINES = 40_000


def seconds(program, clauses, variables, lines, mode):
    took, _, said = measured([program, clauses, variables, lines, mode], runs=3)
    if not said.startswith("NoEmpty"):
        sys.exit(f"{clauses} clauses: {said}")
    return took


def micros(program, clauses, variables):
    """Microseconds of a line for being new, and those for following."""
    new, check, filing, none = (
        seconds(program, clauses, variables, lines, mode)
        for lines, mode in ((LINES, "new"), (LINES, "check"), (0, "new"), (0, "check"))
    )
    return 1e6 * (new - check - (filing - none)) / LINES, 1e6 * (check - none) / LINES, filing - none


def main():
    n = int(sys.argv[1]) if len(sys.argv) > 1 else 200_000
    machine()
    with tempfile.TemporaryDirectory() as folder:
        program = built(folder, "newness_bench", HERE / "program.txt")
        for name, few, many in (("1,000 variables", 1000, 1000), ("a quarter as many variables", n // 4, n // 2)):
            rows = [(count, *micros(program, count, variables)) for count, variables in ((n, few), (2 * n, many))]
            for count, new, follows, filing in rows:
                print(f"{name}, {count} clauses: {new:.2f} us a line for being new, {follows:.2f} us for following; "
                      f"{filing:.3f} s once for the clauses", flush=True)
            print(f"{name}: {rows[1][1] / max(rows[0][1], 0.001):.2f} times the time a line for twice the clauses", flush=True)


main()
