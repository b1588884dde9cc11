#!/usr/bin/env python3
"""Times parts with n and 2n edges of 20 sets each: filled, read, and looked at up to their last fault, two loops that cross.

Usage: run.py [n] (100,000). Builds bench/flow/program.txt over pv_flow in a temporary copy, and needs `rt`."""
import pathlib
import sys

HERE = pathlib.Path(__file__).resolve().parent
sys.path.insert(0, str(HERE.parent))
sys.dont_write_bytecode = True
from doubled import doubled  # noqa: E402

n = int(sys.argv[1]) if len(sys.argv) > 1 else 100000
doubled("flow_bench", HERE / "program.txt", n, ["edges"], lambda case, count: [count])
