#!/usr/bin/env python3
"""Times the making of n and 2n gates in three orders, and of n and 2n clauses and their text.

Usage: run.py [n] (1,000,000). Builds bench/base/program.txt over pv_gate and pv_cnf in a temporary copy, and needs `rt`."""
import pathlib
import sys

HERE = pathlib.Path(__file__).resolve().parent
sys.path.insert(0, str(HERE.parent))
sys.dont_write_bytecode = True
from doubled import doubled  # noqa: E402

n = int(sys.argv[1]) if len(sys.argv) > 1 else 1000000
orders = ["random", "rising", "falling", "clauses"]
doubled("base_bench", HERE / "program.txt", n, orders, lambda order, count: [order, count])
