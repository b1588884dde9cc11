"""Builds a program over the repository's libraries in a folder outside the repository, whose own programs are in crates.txt.

The program stands on the libraries of the repository that its text names, on anyhow, and on smallvec where it names that."""
import pathlib
import re
import shutil
import subprocess
import sys

ROOT = pathlib.Path(__file__).resolve().parent.parent


def library_lines():
    """What crates.txt says of each library: its line, and the libraries that it uses."""
    lines = {}
    for line in (ROOT / "crates.txt").read_text().splitlines():
        name, colon, used = line.partition("#")[0].partition(":")
        if colon:
            lines[name] = (line, used.split())
    return lines


def below(names, lines):
    """These libraries and those of the repository that they use, each once."""
    found = {}
    for name in names:
        if name in lines and name not in found:
            found |= dict.fromkeys([*below(lines[name][1], lines), name])
    return list(found)


def copy_proofs(text, crate):
    """Copies what a program's proof takes: each file F/Invariants.txt of the folder proofs/ beside its text, as proofs/F/Invariants.antt."""
    folder = pathlib.Path(text).parent / "proofs"
    for file in folder.rglob("*.txt"):
        copy = crate / "proofs" / file.relative_to(folder).with_suffix(".antt")
        copy.parent.mkdir(parents=True, exist_ok=True)
        shutil.copy(file, copy)


def take_modules(text, crate):
    """Makes a program's copy a library, if a file of its name lies beside a bench's text: the file is its lib.rt, and the modules that it
    doesn't name are left out."""
    facade = pathlib.Path(text).parent / f"{crate.name}.txt"
    if not facade.exists():
        return
    (crate / "src" / "main.rt").unlink()
    for file in (crate / "src").glob("*.rt"):
        if not re.search(rf"\bmod {file.stem};", facade.read_text()):
            file.unlink()
            shutil.rmtree(crate / "proofs" / file.stem, ignore_errors=True)
    shutil.copy(facade, crate / "src" / "lib.rt")


def named(text, library):
    """Whether the text names the library."""
    return re.search(rf"\b{library}\b", pathlib.Path(text).read_text()) is not None


def copied(place, name, text):
    """The folder of the crate of this name whose main.rt is the text, in a repository that is made in this place for it and the
    libraries below."""
    place = pathlib.Path(place)
    lines = library_lines()
    used = [library for library in lines if named(text, library)]
    libraries = below(used, lines)
    for library in libraries:
        left_out = shutil.ignore_patterns("must-fail", "out")
        shutil.copytree(ROOT / "crates" / library, place / "crates" / library, ignore=left_out)
        take_modules(text, place / "crates" / library)
    shutil.copy(ROOT / "HANDLES", place)
    own = f"{name}: anyhow {'smallvec ' * named(text, 'smallvec')}{' '.join(used)}"
    (place / "crates.txt").write_text("\n".join([*(lines[library][0] for library in libraries), own]) + "\n")
    crate = place / "crates" / name
    (crate / "src").mkdir(parents=True)
    shutil.copy(text, crate / "src" / "main.rt")
    copy_proofs(text, crate)
    return crate


def built(place, name, text):
    """The program of this name whose main.rt is the text, proved."""
    crate = copied(place, name, text)
    # (rt takes the folder with .git for a repository's)
    (pathlib.Path(place) / ".git").mkdir()
    # It begins with what the gate has proved on this machine, and calls the program with no words, whatever that prints.
    run = subprocess.run(["rt", "ci"], cwd=place, stdin=subprocess.DEVNULL, stdout=subprocess.PIPE, stderr=subprocess.STDOUT, text=True)
    program = crate / "out" / name
    if not program.exists():
        sys.exit(run.stdout)
    return program
