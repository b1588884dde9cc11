#!/usr/bin/env python3
"""Checks that each recipe of docs/recipes lists every file that such a change touches.

A recipe has a line `Example: ..`, whose words in backticks are the names that an example of its kind has in the code: `Xor`. Every
file of a crate's src/, specs/ and proofs/ that has one of them as a word, comments and names of modules of lemmas aside, has to be
listed in the recipe: in backticks, as `crates/NAME/src/file.rt`, as `src/file.rt` after a file of the same crate, or by a pattern in which `*` stands for
any letters. A listed path without `*` has to be there.

Usage: tools/check-recipes.py, anywhere. Each fault is a line on standard error, and the status is then 1."""
import fnmatch
import pathlib
import re
import sys

ROOT = pathlib.Path(__file__).resolve().parent.parent
FOLDERS = ("src", "specs", "proofs")
COMMENT = {".rt": re.compile(r"//.*"), ".antt": re.compile(r"^\s*--.*")}
LEMMAS = re.compile(r"\bproofs\.\w+|\bpub mod \w+")


def sources():
    """The code, the definitions and the proofs of all crates: each file's path with its text."""
    for folder in FOLDERS:
        for file in (ROOT / "crates").glob(f"*/{folder}/**/*"):
            if file.suffix in COMMENT:
                yield file.relative_to(ROOT).as_posix(), file.read_text(encoding="utf-8")


def found(names, path, text):
    """The first of the names that stands as a word in a file's text, comments aside."""
    word = re.compile(r"(?<!\w)(?:" + "|".join(map(re.escape, names)) + r")(?!\w)")
    comment = COMMENT[pathlib.PurePath(path).suffix]
    if any(name in text for name in names):
        for line in text.splitlines():
            match = word.search(LEMMAS.sub("", comment.sub("", line)))
            if match:
                return match.group(0)
    return None


def example(text):
    """The names of a recipe's example."""
    line = re.search(r"^Example: .*(?:\n.+)*", text, re.M)
    return re.findall(r"`([^`]+)`", line.group(0)) if line else []


def listed(text):
    """The paths and patterns that a recipe lists, whole."""
    crate = ""
    for word in re.findall(r"`([^`\s]+)`", text):
        if word.startswith("crates/"):
            crate = "/".join(word.split("/")[:2])
            yield word
        elif word.startswith(tuple(f"{folder}/" for folder in FOLDERS)) and crate:
            yield f"{crate}/{word}"


def faults(recipe, files):
    text = recipe.read_text(encoding="utf-8")
    names, paths = example(text), list(listed(text))
    if not names:
        yield "has no line `Example: ..` with a name of the code"
        return
    yield from (f"lists {path}, which isn't there" for path in paths if "*" not in path and not (ROOT / path).exists())
    for path, text in files:
        name = found(names, path, text)
        if name and not any(path == p or fnmatch.fnmatch(path, p) for p in paths):
            yield f"doesn't list {path}, which has {name}"


def main():
    files, count = sorted(sources()), 0
    for recipe in sorted((ROOT / "docs" / "recipes").glob("*.md")):
        for fault in faults(recipe, files):
            count += 1
            print(f"check-recipes: {recipe.relative_to(ROOT)} {fault}", file=sys.stderr)
    sys.exit(1 if count else 0)


if __name__ == "__main__":
    main()
