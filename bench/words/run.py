#!/usr/bin/env python3
"""Times the making of n and 2n gates by operations on words of 32 bits: sums, products, and signed quotients with remainders.

Usage: run.py [n] (500,000). Builds bench/words/program.txt over pv_gate and pv_bits in a temporary copy, and needs `rt`."""
import pathlib
import sys

HERE = pathlib.Path(__file__).resolve().parent
sys.path.insert(0, str(HERE.parent))
sys.dont_write_bytecode = True
from doubled import doubled  # noqa: E402

n = int(sys.argv[1]) if len(sys.argv) > 1 else 500000
operations = ["sums", "products", "quotients"]
doubled("words_bench", HERE / "program.txt", n, operations, lambda operation, count: [operation, count])
