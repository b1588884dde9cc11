#!/usr/bin/env python3
"""Holds docs/case.schema.json against the cases that the repository has: the examples', those of docs/FORMATS.md, where each row of
the block 'cases' changes the whole case above it and says what is answered, and the rows of pv_rows. Needs Debian's
python3-jsonschema."""
import glob
import json
import re
import sys

from jsonschema import Draft202012Validator

FORMATS = "docs/FORMATS.md"
# what the schema can't say stands in such rows
BEYOND = "(beyond the schema)"

# the parts of the rows of pv_rows that have whole cases: this setting, and the text with `@1` for the row
ROWS = "crates/pv_rows/"
SETTING = "file c.json "
# what an answer begins with where the case reads and the file that it names first isn't there
READ = "6 plcv: read "


def merged(target, patch):
    """The target changed by a JSON merge patch (RFC 7386): null takes a member out."""
    if not isinstance(patch, dict):
        return patch
    result = dict(target) if isinstance(target, dict) else {}
    for key, value in patch.items():
        if value is None:
            result.pop(key, None)
        else:
            result[key] = merged(result.get(key), value)
    return result


def block(text, kind):
    found = re.search(r"^```" + kind + r"\n(.*?)^```$", text, re.S | re.M)
    if not found:
        sys.exit(f"{FORMATS} has no block '{kind}'")
    return found.group(1)


def answers():
    """What is answered to each row, by its part and number."""
    with open(ROWS + "stdout", encoding="utf-8") as file:
        return dict(line.rstrip("\n").split(": ", 1) for line in file)


def rows():
    """The rows of pv_rows that are cases by themselves: the part and the number, the row, the case's text and whether it reads."""
    said = answers()
    with open(ROWS + "stdin", encoding="utf-8") as file:
        parts = file.read().split("\npart ")[1:]
    for part in parts:
        name, *lines = part.split("\n")
        front, _, back = lines[0].removeprefix(SETTING).partition("@1")
        if not name.startswith(("cases, ", "whole texts")) or not lines[0].startswith(SETTING):
            continue
        for number, row in enumerate((line for line in lines if line.startswith("row")), 1):
            members = row.removeprefix("row").strip().replace("@x20", " ")
            yield f"{name} {number}", row, front + members + back, said[f"{name} {number}"].startswith(READ)


def parsed(text):
    """The text's value, with null for each number that is no integer to a case (1.0, -0); None where it is no JSON."""
    try:
        return json.loads(text, parse_float=lambda t: None, parse_int=lambda t: None if t == "-0" else int(t))
    except ValueError:
        return None


def has_twins(case):
    """Whether two symbols differ in letter case alone, which the schema can't say."""
    names = [n.lower() for n in case.get("symbols", {})]
    return len(set(names)) < len(names)


def main():
    with open("docs/case.schema.json", encoding="utf-8") as file:
        schema = json.load(file)
    Draft202012Validator.check_schema(schema)
    validator = Draft202012Validator(schema)
    faults = []
    count = 0
    for name in sorted(glob.glob("examples/*/case.json")):
        count += 1
        with open(name, encoding="utf-8") as file:
            for error in validator.iter_errors(json.load(file)):
                faults.append(f"{name}: {error.message}")
    with open(FORMATS, encoding="utf-8") as file:
        text = file.read()
    whole = json.loads(block(text, "json"))
    for error in validator.iter_errors(whole):
        faults.append(f"{FORMATS}, the whole case: {error.message}")
    for row in block(text, "cases").splitlines():
        patch, _, answer = row.rpartition(" | ")
        count += 1
        good = validator.is_valid(merged(whole, json.loads(patch)))
        if good != (answer == "read" or answer.endswith(BEYOND)):
            faults.append(f"{FORMATS}: the schema {'takes' if good else 'refuses'} {row}")
    for name, row, case, reads in rows():
        count += 1
        value = parsed(case)
        good = validator.is_valid(value)
        if good != reads and not (good and has_twins(value)):
            faults.append(f"{name}: the schema {'takes' if good else 'refuses'} {row}")
    for fault in faults:
        print(fault, file=sys.stderr)
    if not faults:
        print(f"check-schema: {count} cases as they should be")
    return 1 if faults else 0


if __name__ == "__main__":
    sys.exit(main())
