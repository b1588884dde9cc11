#!/usr/bin/env python3
"""Times the walk over a certificate with a log of n and of 2n lines, beside a plain checker in C: of a certificate in memory, and of its text.

Usage: run.py [n] (1,000,000). Builds program.txt over pv_judge and pv_bool_judged in a temporary copy, and needs `rt` and a C compiler. The
walk makes the circuit and the formula of the query; the plain checker makes the formula, and knows the log's form. The texts take some 180
bytes a line on the disk."""
import os
import pathlib
import subprocess
import sys
import tempfile

HERE = pathlib.Path(__file__).resolve().parent
sys.path.insert(0, str(HERE.parent))
sys.dont_write_bytecode = True
from build import built  # noqa: E402
from measure import machine  # noqa: E402

GATES = 400000


def build(place):
    """The two programs."""
    program = built(place, "judge_bench", HERE / "program.txt")
    plain = place / "plain"
    subprocess.run(["cc", "-O2", "-o", plain, HERE / "plain.c"], check=True)
    return {"plcv": program, "C": plain}


def measure(program, how, lines, text):
    """Milliseconds and peak megabytes of the best of five runs."""
    best = None
    for _ in range(5):
        with open(text) as given:
            command = ["/usr/bin/time", "-f", "%M", program, how, str(lines), str(GATES)]
            run = subprocess.run(command, stdin=given, capture_output=True, text=True, check=True)
        word, _, ms = run.stdout.split()
        if word != "valid":
            sys.exit(f"{program}: {run.stdout}")
        row = (float(ms), int(run.stderr.split()[-1]) / 1024)
        best = min(best or row, row)
    return best


def main():
    n = int(sys.argv[1]) if len(sys.argv) > 1 else 1000000
    machine()
    with tempfile.TemporaryDirectory() as folder:
        place = pathlib.Path(folder)
        programs = build(place)
        took = {}
        for lines in n, 2 * n:
            text = place / "certificate.txt"
            with open(text, "w") as out:
                subprocess.run([programs["C"], "make", str(lines), str(GATES)], stdout=out, check=True)
            for how in "walk", "text":
                rows = {name: measure(program, how, lines, text if how == "text" else os.devnull) for name, program in programs.items()}
                for name, (ms, mb) in rows.items():
                    print(f"{how}, {lines} lines, {name}: {ms:.0f} ms, {mb:.0f} MB")
                print(f"{how}, {lines} lines: plcv takes {rows['plcv'][0] / rows['C'][0]:.2f} times as long as C", flush=True)
                took[how, lines] = rows["plcv"][0]
        for how in "walk", "text":
            print(f"{how}: {took[how, 2 * n] / took[how, n]:.2f} times the time for twice the lines")


if __name__ == "__main__":
    main()
