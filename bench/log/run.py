#!/usr/bin/env python3
"""Times the checker of logs beside a plain one in C, on a log of n lines and one of 2n.

Usage: run.py [n]. Builds both programs in a temporary copy of the crates, and needs `rt` and a C compiler."""
import os
import pathlib
import subprocess
import sys
import tempfile

HERE = pathlib.Path(__file__).resolve().parent
sys.path.insert(0, str(HERE.parent))
sys.dont_write_bytecode = True
from build import built  # noqa: E402


def build(place):
    """The two programs."""
    program = built(place, "log_bench", HERE / "program.txt")
    plain = place / "plain"
    subprocess.run(["cc", "-O2", "-o", plain, HERE / "plain.c"], check=True)
    return {"plcv": program, "C": plain}


def measure(program, lines):
    """Milliseconds, hints and peak megabytes of the best of three runs."""
    best = None
    for _ in range(3):
        run = subprocess.run(
            ["/usr/bin/time", "-f", "%M", program, str(lines)], capture_output=True, text=True, check=True
        )
        word, _, hints, _, ms = run.stdout.split()
        if word != "accepted":
            sys.exit(f"{program}: {run.stdout}")
        row = (float(ms), int(hints), int(run.stderr.split()[-1]) / 1024)
        best = min(best or row, row)
    return best


def main():
    lines = int(sys.argv[1]) if len(sys.argv) > 1 else 1000000
    with tempfile.TemporaryDirectory() as place:
        programs = build(pathlib.Path(place))
        print(f"{os.cpu_count()} processors")
        for n in [lines, 2 * lines]:
            rows = {name: measure(program, n) for name, program in programs.items()}
            for name, (ms, hints, mb) in rows.items():
                print(f"{n} lines, {hints} hints, {name}: {ms:.0f} ms, {1e6 * ms / hints:.1f} ns a hint, {mb:.0f} MB")
            print(f"{n} lines: plcv takes {rows['plcv'][0] / rows['C'][0]:.2f} times as long as C")


main()
