#!/usr/bin/env python3
"""Checks that each line of crates.txt lists exactly the libraries that its crate's own files name: those of the repository in the file's
order, then those of the toolchain by name.

A .rt file names a library by a path that begins with it (`NAME::`) or by `use NAME`, a .rt or .antt file by a module `Rattle.NAME.`;
comments aren't read. A library of the toolchain counts where some line lists it, as a crate can't be built without one that its line
lacks. Besides, the ways down from the program through crates.txt are at most PATHS.

Usage: tools/check-lines.py, anywhere. Each fault is a line on standard error, with the line as it should be, and the status is then 1."""
import functools
import pathlib
import re
import sys

ROOT = pathlib.Path(__file__).resolve().parent.parent
PROGRAM = "plcv"
# `rt` lists what lies below a crate by going down each way, many times a command, and some kits sum each library's files anew on each way,
# so a line that repeats what another brings along costs with all that stand above it. The commands hand on what those above them name of
# pv_command_load and pv_bool_load (their modules `Handed`), as each way to these leads on to all readers and rules.
PATHS = 60_000
COMMENTS = {".rt": re.compile(r"//.*"), ".antt": re.compile(r"--.*")}
NAMED = {
    ".rt": re.compile(r"(?<![\w:])(\w+)::|^(?:pub )?use (\w+)|\bRattle\.(\w+)\.", re.M),
    ".antt": re.compile(r"\bRattle\.(\w+)\."),
}


def lines():
    """What crates.txt lists for each crate."""
    found = {}
    for line in (ROOT / "crates.txt").read_text(encoding="utf-8").splitlines():
        name, colon, libraries = line.partition("#")[0].partition(":")
        if colon:
            found[name.split()[0]] = libraries.split()
    return found


def named(crate):
    """The words of a crate's files that may be a library's name."""
    found = set()
    for part in ("src", "specs", "proofs"):
        for file in sorted((ROOT / "crates" / crate / part).rglob("*")):
            if file.suffix in NAMED:
                text = COMMENTS[file.suffix].sub("", file.read_text(encoding="utf-8"))
                for words in NAMED[file.suffix].findall(text):
                    found.update([words] if isinstance(words, str) else words)
    return found - {crate}


def main():
    listed = lines()
    of_kit = sorted({library for libraries in listed.values() for library in libraries} - set(listed))
    faults = 0
    for crate, libraries in listed.items():
        words = named(crate)
        wanted = [library for library in [*listed, *of_kit] if library in words]
        if libraries != wanted:
            faults += 1
            print(f"check-lines: crates.txt should have: {crate}: {' '.join(wanted)}", file=sys.stderr)

    @functools.cache
    def paths(crate):
        return 1 + sum(paths(library) for library in listed[crate] if library in listed)

    if paths(PROGRAM) > PATHS:
        faults += 1
        print(f"check-lines: {paths(PROGRAM)} ways down from {PROGRAM}, more than {PATHS}", file=sys.stderr)
    sys.exit(1 if faults else 0)


if __name__ == "__main__":
    main()
