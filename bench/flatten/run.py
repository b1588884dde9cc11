#!/usr/bin/env python3
"""Times the laying out of declarations with n and 2n leaves through five levels of structures and arrays, and of one that
would have 10^12 leaves and is refused.

Usage: run.py [n] (10,000; at most so many). Builds bench/flatten/program.txt over pv_types in a temporary copy, and needs `rt`."""
import pathlib
import sys

HERE = pathlib.Path(__file__).resolve().parent
sys.path.insert(0, str(HERE.parent))
sys.dont_write_bytecode = True
from doubled import doubled  # noqa: E402

n = int(sys.argv[1]) if len(sys.argv) > 1 else 10000
doubled("flatten_bench", HERE / "program.txt", n, ["deep", "refused"], lambda case, count: [case, count])
