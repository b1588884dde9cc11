#!/usr/bin/env python3
"""Makes trace files, which it writes to standard output.

    tools/trace.py from-report REPORT CASE      of a report with the inputs of a run, its lines `param PATH = V` and `in SCAN PATH = V`
    tools/trace.py from-certificate FILE        of a certificate with a run from the start
    tools/trace.py from-csv FILE CASE           of a recording: a header of input paths, then a row a scan

A recording has a column for each input that no `bind` fixes, in any order. Paths are those that `plcv show` prints, in any letter case.
A value is TRUE, FALSE or a whole number; columns are parted by semicolons where the header has one, else by tabs where it has one, else by
commas, and a field may stand in double quotes. A parameter (`params` of the case) has the same value in each row. Which inputs there are,
in which order, and which values they take is asked of plcv, in the folder in which this is called.

What is wrong is told on standard error as FILE:LINE:COLUMN, from 1, and nothing is written. Nothing here is trusted: what a trace says
is what plcv reads in it."""
import json
import os
import pathlib
import re
import subprocess
import sys
import tempfile

ROOT = pathlib.Path(__file__).resolve().parent.parent
PLCV = os.environ.get("PLCV", str(ROOT / "plcv"))
RUNS = {"violated", "trapped", "reached", "loop"}


class Fault(Exception):
    """What is told on standard error."""


def fault(file, line, column, text):
    return Fault(f"{file}:{line}:{column}: {text}")


def read(file):
    """The text of a file; each byte is one sign."""
    try:
        return pathlib.Path(file).read_bytes().decode("latin-1")
    except OSError as error:
        raise Fault(f"{file}: {error.strerror}") from error


def read_case(file):
    try:
        case = json.loads(pathlib.Path(file).read_bytes())
    except OSError as error:
        raise Fault(f"{file}: {error.strerror}") from error
    except ValueError as error:
        raise Fault(f"{file}: {error}") from error
    if not isinstance(case, dict):
        raise Fault(f"{file}: a case is an object")
    return case


def trace_text(params, scans):
    lines = ["PLCVTRACE 1", " ".join(["params", *map(str, params)])]
    lines += [" ".join(["scan", *map(str, scan)]) for scan in scans]
    return "\n".join([*lines, "end"]) + "\n"


# ---- reports


def from_report(file, case_file):
    lines = read(file).split("\n")
    name = read_case(case_file).get("name")
    if lines[0] != "PLCV 1":
        raise fault(file, 1, 1, "this is no report")
    if len(lines) < 2 or lines[1] != f"case {name}":
        raise fault(file, 2, 1, f"this is no report of the case {name}")
    verdict = next((line for line in lines if line.startswith("verdict ")), "")
    loop = "limit loop" in " ".join(lines)
    if verdict.split(" ")[-1] not in RUNS and not loop:
        raise fault(file, min(4, len(lines)), 1, "this report has no run from the start")
    params, scans, count = [], [], None
    for number, line in enumerate(lines, 1):
        if found := re.fullmatch(r"scan (\d+)", line):
            count = int(found.group(1))
            scans = [[] for _ in range(count)]
        elif found := re.fullmatch(r"param .+ = (-?\d+)", line):
            params.append(int(found.group(1)))
        elif found := re.fullmatch(r"in (\d+) .+ = (-?\d+)", line):
            if count is None or not 1 <= int(found.group(1)) <= count:
                raise fault(file, number, 4, "this scan is none of the run")
            scans[int(found.group(1)) - 1].append(int(found.group(2)))
    if count is None:
        raise fault(file, len(lines), 1, "the report doesn't say how many scans the run has")
    for number, scan in enumerate(scans, 1):
        if len(scan) != len(scans[0]):
            raise fault(file, len(lines), 1, f"scan {number} has {len(scan)} values and scan 1 {len(scans[0])}")
    return trace_text(params, scans)


# ---- certificates


def from_certificate(file):
    lines = read(file).split("\n")
    if lines[0] != "PLCVCERT 1":
        raise fault(file, 1, 1, "this is no certificate")
    found = re.fullmatch(r"verdict (\w+) (\d+)", lines[1]) if len(lines) > 1 else None
    if not found or found.group(1) not in RUNS:
        raise fault(file, 2, 1, "this certificate has no run from the start")
    count = int(found.group(2))
    if len(lines) < 3 or not re.fullmatch(r"params( -?\d+)*", lines[2]):
        raise fault(file, 3, 1, "here the parameters' values belong")
    for number in range(3, 3 + count):
        if number >= len(lines) or not re.fullmatch(r"scan( -?\d+)*", lines[number]):
            raise fault(file, number + 1, 1, f"here the values of scan {number - 2} belong")
    return "\n".join(["PLCVTRACE 1", *lines[2:3 + count], "end"]) + "\n"


# ---- recordings


def key_of(path):
    """A path as it is compared."""
    return re.sub(r"\s+", " ", path.strip()).lower()


def keys_of(paths):
    """Those of a case, whose bytes are those of its sources."""
    return {key_of(path.encode("utf-8").decode("latin-1")) for path in paths or ()}


def fields_of(file, number, line, separator):
    """The fields of a line, each with its column."""
    field = re.compile(rf'\s*"((?:[^"]|"")*)"\s*(?={separator}|$)|([^{separator}]*)')
    fields, at = [], 0
    while at <= len(line):
        quoted, plain = (found := field.match(line, at)).groups()
        text = plain.strip() if quoted is None else quoted.replace('""', '"').strip()
        # (a path of a data block has quotes of its own)
        if quoted is None and text.count('"') % 2:
            raise fault(file, number, at + 1, "a quote isn't closed here")
        fields.append((text, at + 1))
        at = found.end() + 1
    return fields


class Program:
    """What plcv says of the case with all its parameters as inputs, whose values a trace gives scan by scan."""

    def __init__(self, case):
        self.case = json.dumps({**case, "params": []})

    def ask(self, command, scans):
        """The status and the text that the command answers of a trace with these values."""
        with tempfile.TemporaryDirectory() as folder:
            case, trace = pathlib.Path(folder, "case.json"), pathlib.Path(folder, "trace.txt")
            case.write_text(self.case, encoding="utf-8")
            trace.write_text(trace_text([], scans), encoding="ascii")
            run = subprocess.run([PLCV, command, case, trace], stdin=subprocess.DEVNULL, stdout=subprocess.PIPE)
        return run.returncode, run.stdout.decode("latin-1")

    def scan_at_fault(self, scans):
        """The first scan, from 0, whose values the inputs don't take, else none."""
        status, said = self.ask("replay", scans)
        if status == 8 and (found := re.fullmatch(r"plcv: trace: line (\d+)\n", said)):
            return int(found.group(1)) - 3
        if status > 2:
            raise Fault(said.strip())
        return None

    def inputs(self, guess):
        """The paths of the inputs, in their order; so many are tried first."""
        for count in sorted(range(20001), key=lambda count: abs(count - guess)):
            if self.scan_at_fault([[0] * count]) is None:
                lines = self.ask("show", [[0] * count])[1].split("\n")
                return [line[3:-4] for line in lines if line.startswith("in ") and line.endswith(" = 0")]
        raise Fault("the case has too many inputs")


def value_of(file, line, text, column):
    if text.upper() in ("TRUE", "FALSE"):
        return int(text.upper() == "TRUE")
    if re.fullmatch(r"[-+]?\d+", text):
        return int(text)
    raise fault(file, line, column, f"this is neither TRUE, FALSE nor a whole number: {text}" if text else "a value is missing here")


def rows_of(file):
    """The header's fields, and of each row its line and its fields."""
    lines = read(file).removeprefix("\xef\xbb\xbf").split("\n")
    lines = [line.removesuffix("\r") for line in lines]
    while lines and not lines[-1].strip():
        lines.pop()
    if not lines:
        raise fault(file, 1, 1, "here a header of input paths belongs")
    separator = next((sign for sign in ";\t" if sign in lines[0]), ",")
    rows = [fields_of(file, number, line, separator) for number, line in enumerate(lines, 1)]
    return rows[0], list(enumerate(rows[1:], 2))


def columns_of(file, header, paths):
    """For each path the number of its column."""
    columns = {}
    for number, (text, column) in enumerate(header):
        key = key_of(text)
        if key not in paths:
            raise fault(file, 1, column, f"this is no input of the case: {text}")
        if key in columns:
            raise fault(file, 1, column, f"a second column of {text}")
        columns[key] = number
    for key in paths:
        if key not in columns:
            raise fault(file, 1, header[-1][1] + len(header[-1][0]), f"a column is missing: {key}")
    return [columns[key] for key in paths]


def from_csv(file, case_file, program=None):
    case = read_case(case_file)
    program = program or Program(case)
    fixed = keys_of(case.get("params")) - keys_of(case.get("bind"))
    header, rows = rows_of(file)
    paths = [key_of(path) for path in program.inputs(len(header))]
    order = columns_of(file, header, paths)
    values = []
    for line, fields in rows:
        if len(fields) != len(header):
            raise fault(file, line, fields[-1][1], f"this row has {len(fields)} values, the header {len(header)}")
        values.append([value_of(file, line, *fields[column]) for column in order])
    check_types(file, program, rows, order, values)
    params = [number for number, path in enumerate(paths) if path in fixed]
    for (line, fields), row in zip(rows, values):
        for number in params:
            if row[number] != values[0][number]:
                raise fault(file, line, fields[order[number]][1], "a parameter has one value for all rows, that of line 2")
    if params and not rows:
        raise fault(file, 2, 1, "without a row the parameters have no values")
    kept = [number for number in range(len(paths)) if number not in params]
    return trace_text([values[0][number] for number in params], [[row[number] for number in kept] for row in values])


def check_types(file, program, rows, order, values):
    """Tells the first row with a value that its input doesn't take, and then a word in a column that isn't BOOL."""
    at = program.scan_at_fault(values)
    if at is not None:
        line, fields = rows[at]
        for number, value in enumerate(values[at]):
            if program.scan_at_fault([[value if n == number else 0 for n in range(len(order))]]) is not None:
                raise fault(file, line, fields[order[number]][1], f"the input doesn't take this value: {value}")
    for number, column in enumerate(order):
        for line, fields in rows:
            if fields[column][0].upper() in ("TRUE", "FALSE"):
                if program.scan_at_fault([[2 if n == number else 0 for n in range(len(order))]]) is None:
                    raise fault(file, line, fields[column][1], f"the input isn't BOOL: {fields[column][0]}")
                break


FORMS = {"from-report": (from_report, 2), "from-certificate": (from_certificate, 1), "from-csv": (from_csv, 2)}


def main():
    words_given = sys.argv[1:]
    if not words_given or words_given[0] not in FORMS or len(words_given) != FORMS[words_given[0]][1] + 1:
        print("usage: trace.py from-report REPORT CASE | from-certificate FILE | from-csv FILE CASE", file=sys.stderr)
        sys.exit(2)
    try:
        text = FORMS[words_given[0]][0](*words_given[1:])
    except Fault as told:
        print(f"trace: {told}", file=sys.stderr)
        sys.exit(1)
    sys.stdout.buffer.write(text.encode("latin-1"))


if __name__ == "__main__":
    main()
