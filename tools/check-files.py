#!/usr/bin/env python3
"""Checks that each file that a document names is there.

Looked at are README.md, docs/ and crates/*/README.md: the target of each link that isn't a web address, and each word in backticks
that begins with a folder of the repository (`docs/..`, `tools/..`), or, in a crate's README, with a folder of the crate (`specs/..`).
Words with NAME or CRATE in them, or a `*` or `..` at the end, are patterns and passed over. A name in parentheses after a file,
`file` (`name`), has to occur in it. And the section 'Stands on' of a crate's README names what crates.txt lists for it.

Usage: tools/check-files.py, anywhere. Each fault is a line on standard error, and the status is then 1."""
import pathlib
import re
import sys

ROOT = pathlib.Path(__file__).resolve().parent.parent
LINK = re.compile(r"\]\(([^)\s#]+)")
QUOTED = re.compile(r"`([^`\s]+)`")
INSIDE = re.compile(r"`([^`\s]+)` \(((?:`[^`]+`(?:, )?)+)\)")
TOP = ("crates/", "docs/", "tools/", "examples/", "bench/", ".ci/")
OWN = ("specs/", "src/", "proofs/", "must-fail/", "grammar/")


def documents():
    yield ROOT / "README.md"
    yield from sorted((ROOT / "docs").rglob("*.md"))
    yield from sorted((ROOT / "crates").glob("*/README.md"))


def crate_of(document):
    """The crate's folder that a document speaks of, if it speaks of one."""
    return document.parent if document.parent.parent.name == "crates" else None


def missing(document):
    """What a document names and isn't there, with its line."""
    crate = crate_of(document)
    for number, line in enumerate(document.read_text(encoding="utf-8").splitlines(), 1):
        for target in LINK.findall(line):
            if "://" not in target and not (document.parent / target).exists():
                yield number, target
        for word in QUOTED.findall(line):
            if re.search(r"\b(NAME|CRATE)\b|\*|\.\.$", word):
                continue
            if word.startswith(TOP) and not (ROOT / word).exists():
                yield number, word
            if crate and word.startswith(OWN) and not (crate / word).exists():
                yield number, word
        for word, names in INSIDE.findall(line):
            if (ROOT / word).is_file():
                text = (ROOT / word).read_text(encoding="utf-8")
                for name in QUOTED.findall(names):
                    if not re.search(rf"\b{re.escape(name)}\b", text):
                        yield number, f"{name} in {word}"


def unsaid():
    """What crates.txt lists for a crate and the section 'Stands on' of its README doesn't name."""
    for line in (ROOT / "crates.txt").read_text(encoding="utf-8").splitlines():
        name, _, libraries = line.partition("#")[0].partition(":")
        readme = ROOT / "crates" / name.strip() / "README.md"
        if name.strip() and readme.exists():
            section = readme.read_text(encoding="utf-8").partition("## Stands on")[2]
            for library in libraries.split():
                if f"`{library}`" not in section:
                    yield readme, library


def main():
    faults = 0
    for document in documents():
        for number, word in missing(document):
            faults += 1
            print(f"check-files: {document.relative_to(ROOT)}:{number}: no {word}", file=sys.stderr)
    for readme, library in unsaid():
        faults += 1
        print(f"check-files: {readme.relative_to(ROOT)}: 'Stands on' says nothing of {library}", file=sys.stderr)
    sys.exit(1 if faults else 0)


if __name__ == "__main__":
    main()
