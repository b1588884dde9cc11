#!/usr/bin/env python3
"""Times the reading and the writing of certificates with n and 2n lines: those of a log, and those of scans.

Usage: run.py [n] (a million). Builds the program in a temporary copy of the crates, and needs `rt`. Prints the processor time and the
peak memory of whole runs, which make the text, read it, write it back and compare the two; how many bytes of memory a byte of the
text takes besides these two texts; and the milliseconds of reading and of writing by the clock, which other work lengthens."""
import pathlib
import sys
import tempfile

HERE = pathlib.Path(__file__).resolve().parent
sys.path.insert(0, str(HERE.parent))
sys.dont_write_bytecode = True
from build import built  # noqa: E402
from measure import compare, machine, measured  # noqa: E402


def main():
    n = int(sys.argv[1]) if len(sys.argv) > 1 else 1000000
    machine()
    with tempfile.TemporaryDirectory() as place:
        program = built(pathlib.Path(place), "cert_bench", HERE / "program.txt")
        for kind, name in enumerate(["lines of a log", "scans"]):
            rows = [(f"{count} {name}", measured([program, kind, count])) for count in (n, 2 * n)]
            compare(name, *rows)
            for label, (_, peak, said) in rows:
                same, _, size, _, reading, _, writing = said.split()
                if same != "true":
                    sys.exit(f"{label}: {said}")
                size = int(size) / 2**20
                print(f"{label}: {size:.0f} MiB, {peak / size - 2:.1f} bytes of memory a byte besides the texts; read in {reading} ms, written in {writing} ms")


main()
