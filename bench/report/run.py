#!/usr/bin/env python3
"""Times the report of a stretch of 65 scans over n and 2n cells, half of them inputs, and what of it is the making of the verdict.

Usage: run.py [n] (10,000; a block has at most 20,000 cells). Builds bench/report/program.txt over pv_report in a temporary copy, and
needs `rt`."""
import pathlib
import sys
import tempfile

HERE = pathlib.Path(__file__).resolve().parent
sys.path.insert(0, str(HERE.parent))
sys.dont_write_bytecode = True
from build import built  # noqa: E402
from measure import compare, machine, measured  # noqa: E402


def main():
    n = int(sys.argv[1]) if len(sys.argv) > 1 else 10000
    machine()
    with tempfile.TemporaryDirectory() as place:
        program = built(place, "report_bench", HERE / "program.txt")
        rows = {words: [(f"{count} cells", measured([program, count, *words])) for count in (n, 2 * n)] for words in ((), ("alone",))}
    compare("a verdict and its report", *rows[()])
    compare("the verdict alone", *rows[("alone",)])
    for (label, (_, peak, said)), (_, (_, alone, _)) in zip(rows[()], rows[("alone",)]):
        size = int(said.split()[0]) / 2**20
        print(f"{label}: a report of {size:.1f} MiB; {(peak - alone) / size:.2f} bytes of memory a byte, and with the verdict {peak / size:.2f}")


main()
