#!/usr/bin/env python3
"""Checks that the sessions in documents are what the program says.

In a document, a block whose opening fence has two words, a kind and a name, is a file of that name; a block of the kind `console` is a
session: each line with `$ ` in front is a command for the shell, and the lines after it are all that it prints, standard error
included. `echo $?` prints the status of the command before it. Each document's files and sessions are taken in order, in a new
folder that has the repository's plcv, tools and examples.

Usage: tools/check-sessions.py DOCUMENT.. from the repository. Each session that differs is told, and the status is then 1. It
needs a built program; ./plcv builds it where it is missing."""
import pathlib
import re
import subprocess
import sys
import tempfile

ROOT = pathlib.Path(__file__).resolve().parent.parent
BLOCK = re.compile(r"^```(\S+)(?: (\S+))?\n(.*?)^```$", re.M | re.S)


def commands(session):
    """Each command of a session with what it prints."""
    for part in re.split(r"^\$ ", session, flags=re.M)[1:]:
        command, _, output = part.partition("\n")
        yield command, output


def differs(folder, command, status, output):
    """The command's status, and what it printed where that isn't the output."""
    run = subprocess.run(
        ["sh", "-c", f"(exit {status}); {command}"],
        cwd=folder,
        stdin=subprocess.DEVNULL,
        stdout=subprocess.PIPE,
        stderr=subprocess.STDOUT,
        encoding="utf-8",
    )
    return run.returncode, run.stdout if run.stdout != output else None


def check(document, folder):
    """How many commands of a document print something else."""
    faults, status = 0, 0
    for kind, name, text in BLOCK.findall(document.read_text(encoding="utf-8")):
        if name:
            file = folder / name
            file.parent.mkdir(parents=True, exist_ok=True)
            file.write_text(text, encoding="utf-8")
        elif kind == "console":
            for command, output in commands(text):
                status, printed = differs(folder, command, status, output)
                if printed is not None:
                    faults += 1
                    print(f"check-sessions: {document}: $ {command}\n{printed}", file=sys.stderr)
    return faults


def main():
    faults = 0
    for name in sys.argv[1:]:
        with tempfile.TemporaryDirectory() as place:
            folder = pathlib.Path(place)
            for shared in ("plcv", "tools", "examples"):
                (folder / shared).symlink_to(ROOT / shared)
            faults += check(pathlib.Path(name), folder)
    sys.exit(1 if faults else 0)


if __name__ == "__main__":
    main()
