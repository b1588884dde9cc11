#!/usr/bin/env python3
"""Times the recognizer on the sample language, flat and nested, at n and 2n tokens.

Usage: run.py [n] (8,000,000). Builds bench/recognize/main.rt.txt over pv_ll in a temporary copy, and needs `rt`."""
import pathlib
import sys

HERE = pathlib.Path(__file__).resolve().parent
sys.path.insert(0, str(HERE.parent))
sys.dont_write_bytecode = True
from doubled import doubled  # noqa: E402

n = int(sys.argv[1]) if len(sys.argv) > 1 else 8000000
doubled("recognize_bench", HERE / "main.rt.txt", n, ["flat", "nested"], lambda shape, count: [count, shape])
