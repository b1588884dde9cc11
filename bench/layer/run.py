#!/usr/bin/env python3
"""Times the layout of n and 2n spots, each with a check and two ways: alone, and within 60 loops in one another, of which each way back
starts a turn.

Usage: run.py [n] (100,000). Builds bench/layer/program.txt over pv_layer in a temporary copy, and needs `rt`."""
import pathlib
import sys

HERE = pathlib.Path(__file__).resolve().parent
sys.path.insert(0, str(HERE.parent))
sys.dont_write_bytecode = True
from doubled import doubled  # noqa: E402

# how many loops lie in one another
CASES = {"spots alone": 0, "within 60 loops": 60}


def words(case, count):
    """How many loops and spots."""
    return [CASES[case], count]


n = int(sys.argv[1]) if len(sys.argv) > 1 else 100000
doubled("layer_bench", HERE / "program.txt", n, CASES, words)
