#!/usr/bin/env python3
"""Times the copies of called blocks with n and 2n edges: from eight levels of blocks, each with two calls of the next; from calls of one
small block; from one block without calls. The blocks that are copied are made by the program too. And says whether 199,995 assignments and
a call of a block of size 3 are built, and of one of size 4.

Usage: run.py program=FILE [n] (100,000). FILE is bench/inline/copies.txt over pv_inline, built without a proof, as that such blocks fit each
other is so by the way they are made: the module that `rt try` hands to clang, at -O3 (its own runs are slower and larger, as they look for
faults of memory)."""
import pathlib
import subprocess
import sys

HERE = pathlib.Path(__file__).resolve().parent
sys.path.insert(0, str(HERE.parent))
sys.dont_write_bytecode = True
from measure import compare, machine, measured  # noqa: E402

LEVELS = 8


def levels(count):
    """255 blocks are copied, and 254 calls become two edges each."""
    copies = 2**LEVELS - 1
    width = (count - 2 * (copies - 1)) // copies
    return [LEVELS, 2, width, width]


def small(count):
    """Three of ten edges are a call's, of a block of one assignment."""
    calls = count * 3 // 10
    return [2, calls, count - 3 * calls, 1]


def alone(count):
    return [1, 0, 0, count]


CASES = {"eight levels of calls": levels, "calls of one small block": small, "one block without calls": alone}


def main():
    words = dict(word.partition("=")[::2] for word in sys.argv[1:] if "=" in word)
    sizes = [int(word) for word in sys.argv[1:] if "=" not in word]
    program, n = words["program"], sizes[0] if sizes else 100000
    machine()
    _, least, _ = measured([program])
    for case, made in CASES.items():
        rows = [measured([program, *made(count)]) for count in (n, 2 * n)]
        compare(case, *((row[2].strip(), row) for row in rows))
        edges = int(rows[1][2].split()[0])
        taken = (rows[1][1] - least) * 2**20 / edges
        print(f"{case}: {taken:.0f} bytes an edge", flush=True)
    for size in (3, 4):
        said = subprocess.run([program, "2", "1", "199995", str(size)], capture_output=True, text=True, check=True).stdout
        print(f"a call of a block of size {size}: {said.strip()}")


main()
