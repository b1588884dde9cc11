#!/usr/bin/env python3
"""Lowers 100 reads of an array at an index that isn't a literal, of n elements and of 2n: instructions, memory, and nodes.

Usage: run.py [n] (5,000: an array has at most 10,000 elements). Builds bench/lower/program.txt over pv_lower in a temporary copy, and needs
`rt`; instructions need `valgrind`. What lowering takes is what a run takes that lowers once less what one takes which only reads the source."""
import pathlib
import shutil
import sys
import tempfile

HERE = pathlib.Path(__file__).resolve().parent
sys.path.insert(0, str(HERE.parent))
sys.dont_write_bytecode = True
from build import built  # noqa: E402
from measure import instructions, machine, measured  # noqa: E402

READS = 100


def source(place, elements):
    """A file with a block of so many assignments of an element."""
    file = pathlib.Path(place) / f"reads{elements}.scl"
    names = f"VAR i : INT; b : INT; a : ARRAY[1..{elements}] OF INT; END_VAR"
    file.write_text(f"FUNCTION_BLOCK f {names} {'b := a[i]; ' * READS}END_FUNCTION_BLOCK\n")
    return file


class Taken:
    """What lowering the file's reads once takes: seconds, MiB, instructions, and how many nodes there are then."""

    def __init__(self, program, file):
        self.seconds, self.peak, said = measured([program, file, 1])
        read, least, _ = measured([program, file, 0])
        self.seconds, self.memory = self.seconds - read, self.peak - least
        self.nodes = int(said.split()[0])
        self.said = said.strip()
        self.instructions = 0
        if shutil.which("valgrind"):
            self.instructions = instructions([program, file, 1]) - instructions([program, file, 0])


def main():
    n = int(sys.argv[1]) if len(sys.argv) > 1 else 5000
    machine()
    with tempfile.TemporaryDirectory() as place:
        program = built(place, "lower_bench", HERE / "program.txt")
        one, two = (Taken(program, source(place, elements)) for elements in (n, 2 * n))
    for elements, taken in ((n, one), (2 * n, two)):
        print(f"{READS} reads of {elements} elements, {taken.said}: {taken.seconds:.3f} s, {taken.memory:.1f} MiB, "
              f"{taken.memory * 2**20 / taken.nodes:.1f} bytes a node, {taken.instructions / taken.nodes:.1f} instructions a node", flush=True)
    print(f"{two.seconds / one.seconds:.2f} times the time, {two.memory / one.memory:.2f} times the memory", flush=True)
    if one.instructions:
        print(f"{two.instructions / one.instructions:.2f} times the instructions", flush=True)


main()
