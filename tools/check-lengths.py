#!/usr/bin/env python3
"""Checks that no function of the crates has more than 40 lines between its braces, but for those that are listed with theirs.

Usage: tools/check-lengths.py, anywhere. Each fault is a line on standard error, and the status is then 1."""
import pathlib
import re
import sys

ROOT = pathlib.Path(__file__).resolve().parent.parent
MOST = 40
# One match over the forms of an expression, of which each hands up a node and its sort.
LONGER = {("crates/pv_resolve/src/resolve.rt", "expr"): 50}
HEAD = re.compile(r"( *)(?:pub(?:\(\w+\))? )?(?:final )?fn (\w+)")


def lengths(lines):
    """The functions of a file, as `rt fmt` lays it out: the number of each one's line, its name and how many lines its body has."""
    for at, line in enumerate(lines):
        head = HEAD.match(line)
        if not head:
            continue
        indent = head[1]
        begin = None
        for end in range(at, len(lines)):
            text = lines[end]
            if begin is None and (text == f"{indent}{{" or text.endswith(" {") and re.match(indent + r"\S", text)):
                begin = end
            elif text == f"{indent}}}" or begin is None and text.endswith((";", "{}")):
                break
        yield at + 1, head[2], 0 if begin is None else end - begin - 1


def main():
    wrong = 0
    for file in sorted(ROOT.glob("crates/*/src/**/*.rt")):
        for line, name, length in lengths(file.read_text(encoding="utf-8").splitlines()):
            path = file.relative_to(ROOT).as_posix()
            if length > LONGER.get((path, name), MOST):
                print(f"check-lengths: {path}:{line}: {name} has {length} lines", file=sys.stderr)
                wrong = 1
    return wrong


sys.exit(main())
