#!/usr/bin/env python3
"""Checks tools/trace.py: traces of reports, certificates and recordings that were written by hand, and each of its faults. What plcv
answers is played by a program of this file with four inputs.

Usage: tools/check-trace.py, anywhere. Each difference is a line on standard error, and the status is then 1."""
import json
import pathlib
import sys
import tempfile

sys.path.insert(0, str(pathlib.Path(__file__).resolve().parent))
import trace  # noqa: E402

CASE = {"name": "t", "params": ["Limit"], "bind": {"mode": 3}}
REPORT = """PLCV 1
case t
pattern invariant
verdict violated
scan 2
param limit = -5
in 1 go = 1
in 1 n = 7
in 2 go = 0
in 2 n = -8
"""
RANGES = [(0, 1), (-5, 5), (-32768, 32767), (0, 1)]
PATHS = ["go", "limit", "arr[1,2]", '"DB".x']


class Played:
    """A program whose inputs have these paths and ranges."""

    def scan_at_fault(self, scans):
        for at, scan in enumerate(scans):
            if len(scan) != len(RANGES) or any(not least <= v <= most for v, (least, most) in zip(scan, RANGES)):
                return at
        return None

    def inputs(self, guess):
        return PATHS


def said(call):
    """What a call answers, or the fault that it tells, without the folder."""
    try:
        return call()
    except trace.Fault as fault:
        return str(fault).rsplit("/", 1)[-1]


def rows(folder):
    """What is answered, and what should be."""
    case = folder / "case.json"
    case.write_text(json.dumps(CASE), encoding="utf-8")

    def of(form, text, *more):
        file = folder / "f"
        file.write_bytes(text.encode("latin-1"))
        return said(lambda: form(str(file), *more))

    def csv(text):
        return of(trace.from_csv, text, str(case), Played())

    def report(text):
        return of(trace.from_report, text, str(case))

    def certificate(text):
        return of(trace.from_certificate, text)

    head = "PLCVTRACE 1\nparams"
    yield report(REPORT), f"{head} -5\nscan 1 7\nscan 0 -8\nend\n"
    yield report("PLCV 1\ncase t\npattern reach\nverdict reached\nscan 2\n"), f"{head}\nscan\nscan\nend\n"
    yield report("PLCV 1\ncase t\npattern reach\nverdict undecided\nlimit loop 4\nscan 1\nover a:1:1\nin 1 x = 1\n"), f"{head}\nscan 1\nend\n"
    yield report(REPORT.replace("PLCV 1", "PLCV 2")), "f:1:1: this is no report"
    yield report(REPORT.replace("case t", "case u")), "f:2:1: this is no report of the case t"
    yield report(REPORT.replace("violated", "satisfied")), "f:4:1: this report has no run from the start"
    yield report(REPORT.replace("in 2 go", "in 3 go")), "f:9:4: this scan is none of the run"
    yield report(REPORT.replace("in 2 n = -8\n", "")), "f:10:1: scan 2 has 1 values and scan 1 2"

    run = "PLCVCERT 1\nverdict violated 2\nparams\nscan 1 0\nscan 0 1\nend\n"
    yield certificate(run), f"{head}\nscan 1 0\nscan 0 1\nend\n"
    yield certificate(run.replace("CERT", "TRACE")), "f:1:1: this is no certificate"
    yield certificate("PLCVCERT 1\nverdict depth 0\nimage 1\nprev none\nscan\n"), "f:2:1: this certificate has no run from the start"
    yield certificate(run.replace("params", "param")), "f:3:1: here the parameters' values belong"
    yield certificate(run.replace("violated 2", "violated 3")), "f:6:1: here the values of scan 3 belong"

    good = f"{head} -5\nscan 1 7 0\nscan 0 -32768 1\nend\n"
    yield csv('LIMIT;"DB".x;go;arr[1,2]\n-5;false;TRUE;7\n-5;1;0;-32768\n'), good
    yield csv('limit,"""DB"".x",go,"arr[1,2]"\r\n-05,0,1,+7\r\n-5,TRUE,FALSE,-32768\r\n'), good
    yield csv('limit\t"DB".x\tgo\tarr[1,2]\n-5\t0\t1\t7\n-5\t1\t0\t-32768'), good
    full = 'go;limit;arr[1,2];"DB".x\n'
    yield csv(""), "f:1:1: here a header of input paths belongs"
    yield csv(full), "f:2:1: without a row the parameters have no values"
    yield csv("go;limit;arr[1,2]\n1;0;0\n"), 'f:1:18: a column is missing: "db".x'
    yield csv(full.replace("limit", "mode") + "1;0;0;0\n"), "f:1:4: this is no input of the case: mode"
    yield csv(full.replace("limit", "Go") + "1;0;0;0\n"), "f:1:4: a second column of Go"
    yield csv(full + "1;0;0;0\n1;0;0\n"), "f:3:5: this row has 3 values, the header 4"
    yield csv(full + "1;0;0;0;\n"), "f:2:9: this row has 5 values, the header 4"
    yield csv(full + "1;0;;0\n"), "f:2:5: a value is missing here"
    yield csv(full + "1;0;1.5;0\n"), "f:2:5: this is neither TRUE, FALSE nor a whole number: 1.5"
    yield csv(full + '1;0;0;"0\n'), "f:2:7: a quote isn't closed here"
    yield csv(full + "1;0;0;0\n1;0;32768;0\n"), "f:3:5: the input doesn't take this value: 32768"
    yield csv(full + "1;6;0;0\n"), "f:2:3: the input doesn't take this value: 6"
    yield csv(full + "1;0;TRUE;0\n"), "f:2:5: the input isn't BOOL: TRUE"
    yield csv(full + "1;0;0;0\n1;1;0;0\n"), "f:3:3: a parameter has one value for all rows, that of line 2"


def main():
    faults = 0
    with tempfile.TemporaryDirectory() as folder:
        for number, (answer, wanted) in enumerate(rows(pathlib.Path(folder)), 1):
            if answer != wanted:
                faults += 1
                print(f"check-trace: row {number}: {answer!r}, not {wanted!r}", file=sys.stderr)
    sys.exit(1 if faults else 0)


if __name__ == "__main__":
    main()
