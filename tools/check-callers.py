#!/usr/bin/env python3
"""Checks that a crate takes of another crate's proofs only its module ForCallers.

Looked at are the `use` lines of crates/*/proofs, crates/*/specs and crates/*/src that name `Rattle.CRATE.proofs.MODULE`, where CRATE is another
crate of this repository. The toolchain's own crates aren't looked at.

Usage: tools/check-callers.py, anywhere. Each fault is a line on standard error, and the status is then 1."""
import pathlib
import re
import sys

ROOT = pathlib.Path(__file__).resolve().parent.parent
CRATES = ROOT / "crates"
CITED = re.compile(r"\bRattle\.(\w+)\.proofs\.(\w+)")


def foreign(file, own, crates):
    """What a file cites of other crates' proofs outside ForCallers, with its line."""
    for number, line in enumerate(file.read_text(encoding="utf-8").splitlines(), 1):
        code = line.lstrip()
        if code.startswith(("--", "//")) or "use " not in code:
            continue
        for crate, module in CITED.findall(code):
            if crate in crates and crate != own and module != "ForCallers":
                yield number, f"{crate}.proofs.{module}"


def main():
    crates = {folder.name for folder in CRATES.iterdir() if folder.is_dir()}
    faults = 0
    for own in sorted(crates):
        files = [*(CRATES / own).glob("proofs/**/*.antt"), *(CRATES / own).glob("specs/**/*.antt"), *(CRATES / own).glob("src/**/*.rt")]
        for file in sorted(files):
            for number, cited in foreign(file, own, crates):
                faults += 1
                print(f"check-callers: {file.relative_to(ROOT)}:{number}: {cited} isn't ForCallers", file=sys.stderr)
    sys.exit(1 if faults else 0)


if __name__ == "__main__":
    main()
