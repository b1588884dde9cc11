#!/usr/bin/env python3
"""Times the copies of loops with n and 2n edges: of 60 loops within one another, of one loop of 256 turns, and of 1,000 loops side by side
of 10 turns each. The parts that are copied are made by the program too.

Usage: run.py [n] (100,000). Builds bench/unroll/program.txt over pv_unroll in a temporary copy, and needs `rt`."""
import pathlib
import sys

HERE = pathlib.Path(__file__).resolve().parent
sys.path.insert(0, str(HERE.parent))
sys.dont_write_bytecode = True
from doubled import doubled  # noqa: E402

# how many loops, and how many turns each has
CASES = {"60 loops within one another": (60, 1), "one loop of 256 turns": (1, 256), "1,000 loops side by side": (1000, 10)}


def words(case, count):
    """How many loops and turns, and how long a chain: loops of one turn add an edge each to it."""
    loops, turns = CASES[case]
    return [loops, turns, count - loops if turns < 2 else count]


n = int(sys.argv[1]) if len(sys.argv) > 1 else 100000
doubled("unroll_bench", HERE / "program.txt", n, CASES, words)
