#!/usr/bin/env python3
"""Times what a lift tells: the reading of the run, as numbers, that values of the variables of step(64) stand for, so of 65 frames, over a
circuit of a million gates and n and 2n bits, every second one of them an input's.

Usage: run.py [n] (10,000). Builds bench/lift/program.txt over pv_queries and pv_bool_steps in a temporary copy, and needs `rt`. A lift is
made over a source and its pattern; the reading is all that it does with the circuit, and beside it it copies the first state. A run reads
ten times; the seconds and the peak are less those of a run that builds the circuit alone, so that lists of the frames' literals would
show. Where `valgrind` is there, it prints the instructions of a reading too, at a tenth of n bits."""
import pathlib
import shutil
import sys
import tempfile

HERE = pathlib.Path(__file__).resolve().parent
sys.path.insert(0, str(HERE.parent))
sys.dont_write_bytecode = True
from build import built  # noqa: E402
from measure import instructions, machine, measured  # noqa: E402

GATES = 1000000
TIMES = 10


def told(program, bits):
    """Seconds and MiB of a reading, and the peak of the whole process."""
    earlier, low, _ = measured([program, GATES, bits, 0])
    took, peak, said = measured([program, GATES, bits, TIMES])
    scans, state, inputs = (int(word) for word in said.splitlines()[0].split() if word.isdigit())
    if scans != 65 or state > bits or inputs > 65 * bits:
        sys.exit(said)
    return (took - earlier) / TIMES, peak - low, peak


def count(program, bits):
    """The instructions of a reading, over a circuit of few gates."""
    return instructions([program, 3000, bits, 2]) - instructions([program, 3000, bits, 1])


def main():
    n = int(sys.argv[1]) if len(sys.argv) > 1 else 10000
    machine()
    with tempfile.TemporaryDirectory() as place:
        program = built(place, "lift_bench", HERE / "program.txt")
        one, two = told(program, n), told(program, 2 * n)
        for bits, (took, more, peak) in ((n, one), (2 * n, two)):
            print(f"{GATES} gates, {bits} bits: {took:.3f} s, {more:.1f} MiB above the circuit's {peak - more:.1f} MiB")
        print(f"{two[0] / one[0]:.2f} times the time", flush=True)
        if shutil.which("valgrind"):
            few, many = count(program, n // 10), count(program, 2 * n // 10)
            print(f"{few / 1e6:.1f} and {many / 1e6:.1f} million instructions, {many / few:.2f} times", flush=True)


if __name__ == "__main__":
    main()
