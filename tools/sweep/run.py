#!/usr/bin/env python3
"""Fails each allocation of the proved program in turn, one in a run, over the examples in both languages.

Usage: run.py [PROGRAM]. Each run has to end with status 9 and no more than the first part of the report, or with the answer that it has
where memory is ample (an array that doesn't grow in its place may be copied, and one that doesn't shrink is kept). Needs gcc. It isn't part of
the gate. Prints a line for each command, and ends with status 1 where a run answered otherwise."""
import collections
import os
import pathlib
import subprocess
import sys
import tempfile

HERE = pathlib.Path(__file__).resolve().parent
ROOT = HERE.parent.parent

COMMANDS = [
    "replay starter/case.json starter/trace.txt",
    "replay starter/blocked.json starter/broken.txt",
    "replay silo/case.json silo/trace.txt",
    "replay silo/blower.json silo/broken.txt",
    "replay motor/case.json motor/trace.txt",
    "replay tank/case.json tank/trap.txt",
    "replay sequence/case.json sequence/trace.txt",
    "replay conveyor/case.json conveyor/trace.txt",
    "show tank/case.json tank/broken.txt",
    "show starter/blocked.json starter/broken.txt",
    "check conveyor/case.json",
    "check latch/case.json",
    "recheck conveyor/case.json conveyor/certificate.txt",
]


def run(program, library, words, **more):
    settings = dict(os.environ, LD_PRELOAD=str(library), **more)
    done = subprocess.run([program, *words], cwd=ROOT, env=settings, stdout=subprocess.PIPE, stderr=subprocess.DEVNULL)
    return done.returncode, done.stdout


def compiled(folder):
    """The library that fails an allocation, made in this folder."""
    library = pathlib.Path(folder) / "fail.so"
    subprocess.run(["gcc", "-O1", "-shared", "-fPIC", "-o", library, HERE / "fail.c", "-ldl"], check=True)
    return library


def swept(program, library, words, name, failed=9):
    """Prints how each run of a command ends in which another allocation fails, and answers whether all end as they may: with the status
    of one that failed, or with the answer."""
    counted = pathlib.Path(library).with_name("count")
    whole = run(program, library, words, COUNT_TO=str(counted))
    allocations = int(counted.read_text())
    ends, right = collections.Counter(), True
    for at in range(1, allocations + 1):
        status, text = run(program, library, words, FAIL_AT=str(at))
        ends[status] += 1
        if (status, text) != whole and not (status == failed and whole[1].startswith(text)):
            print(f"{name}: allocation {at}: status {status}, {text[:80]!r}", flush=True)
            right = False
    told = ", ".join(f"{number} with status {status}" for status, number in sorted(ends.items()))
    print(f"{name} (status {whole[0]}): {allocations} allocations, {told}", flush=True)
    return right


def main():
    program = pathlib.Path(sys.argv[1]).resolve() if len(sys.argv) > 1 else ROOT / "crates" / "plcv" / "out" / "plcv"
    right = True
    with tempfile.TemporaryDirectory() as folder:
        library = compiled(folder)
        for command in COMMANDS:
            verb, *files = command.split(" ")
            words = [verb, *(f"examples/{file}" for file in files)]
            right = swept(program, library, words, " ".join(words)) and right
    sys.exit(not right)


if __name__ == "__main__":
    main()
