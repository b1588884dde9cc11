#!/usr/bin/env python3
"""Checks that each clause that a document names stands in the sources.

A name is a word in backticks within square brackets that are no link: [`found`, `ReadsBlock`]. In crates/NAME/README.md it is looked
up in the crate NAME, in docs/PROVED.md in pv_top; `other::name` is looked up in the crate `other`. What counts as found:

- in a row of a table, a clause (`ensures NAME {`, `requires NAME {`) of one of the calls that the row's first cell has in backticks, or
  of the row above where the cell is empty; where the first cell has an edit of the crate's must-fail/, of one that the others have;
- elsewhere, a clause of any function of the crate;
- anywhere, a definition of the crate's specs/ (a `data`, a `record`, a function) or a constructor or a field of one, a ghost member, and
  a function, type, variant or constant of its src/; `Record.field` is that field of that record, and `call.clause` that clause of that call.

Besides, each call in the first column of a table is a function, type or definition of the crate, and each public function of a crate
that its root file gives away has its row, or is said in the text.

Usage: tools/check-clauses.py, anywhere. Each fault is a line on standard error, and the status is then 1."""
import pathlib
import re
import sys

ROOT = pathlib.Path(__file__).resolve().parent.parent
BRACKET = re.compile(r"\[([^\[\]]*`[^\[\]]*)\](?!\()")
QUOTED = re.compile(r"`([^`]+)`")
FUNCTION = re.compile(r"\bfn\s+(\w+)")
CLAUSE = re.compile(r"\b(?:ensures|requires)\s+([\w-]+)\s*\{")
ITEM = re.compile(r"\b(?:fn|struct|enum|trait|const|type|mod)\s+(\w+)|^\s+(?:pub\s+)?ghost\s+(\w+)|^\s+([A-Z]\w*)\s*(?:[,({]|$)")
RECORD = re.compile(r"\b(?:record|data)\s+([\w-]+)")
NAMED = re.compile(r"^\s*(?:(?:pub|abbrev|unfoldable|record|data|opaque)\s+)*([^\s:(]+)(?:\s*\([^)]*\))*\s*:")


class Crate:
    """The names of a crate: clauses by function, and all else that a document may cite."""

    def __init__(self, name):
        self.clauses, self.names, self.fields = {}, set(), {}
        folder = ROOT / "crates" / name
        self.edits = {file.stem for file in folder.glob("must-fail/*.edit")}
        for file in sorted(folder.glob("src/**/*.rt")):
            self.read_code(file)
        for file in sorted(folder.glob("specs/**/*.antt")):
            self.read_specs(file)

    def read_code(self, file):
        """The functions with their clauses, the types, variants, constants and ghost members of a file."""
        function = ""
        for line in file.read_text(encoding="utf-8").splitlines():
            if line.lstrip().startswith("//"):
                continue
            for found in FUNCTION.finditer(line):
                function = found.group(1)
                self.clauses.setdefault(function, set())
            self.clauses.setdefault(function, set()).update(CLAUSE.findall(line))
            for found in ITEM.finditer(line):
                self.names.update(word for word in found.groups() if word)

    def read_specs(self, file):
        """The definitions of a file, with their constructors and fields."""
        record = ""
        for line in file.read_text(encoding="utf-8").splitlines():
            found = RECORD.search(line)
            if found and not line.startswith("--"):
                record = found.group(1)
                self.names.add(record)
            found = NAMED.match(line)
            if found and not line.lstrip().startswith("--"):
                self.names.add(found.group(1))
                if line[0] == " ":
                    self.fields.setdefault(record, set()).add(found.group(1))

    def has(self, name, calls):
        """Whether the name is one of the crate, a clause being one of these calls (of any, where there is none)."""
        if "." in name:
            owner, part = name.rsplit(".", 1)
            return part in self.fields.get(owner, set()) | self.clauses.get(owner, set())
        if name in self.names or name in self.clauses:
            return True
        return any(name in self.clauses.get(call, set()) for call in calls or self.clauses)


def calls_of(text):
    """The calls that a text has in backticks, without the module before them."""
    return [name.rsplit("::", 1)[-1] for name in QUOTED.findall(text) if re.fullmatch(r"[\w:]+", name)]


class Checker:
    def __init__(self):
        self.crates = {path.name: Crate(path.name) for path in sorted((ROOT / "crates").iterdir()) if path.is_dir()}
        self.faults = 0

    def complain(self, what):
        self.faults += 1
        print(f"check-clauses: {what}", file=sys.stderr)

    def check(self, document, crate):
        """Each name of a document, whose own crate this is."""
        calls = []
        for number, line in enumerate(document.read_text(encoding="utf-8").splitlines(), 1):
            where = f"{document.relative_to(ROOT)}:{number}"
            is_row = line.startswith("|")
            if is_row:
                first, others = calls_of(line.split("|")[1]), calls_of(BRACKET.sub("", line))
                is_edit = self.crates[crate].edits & set(first)
                calls = [name for name in others if name in self.crates[crate].clauses] if is_edit else first or calls
            else:
                calls = []
            for bracket in BRACKET.findall(line):
                for name in QUOTED.findall(bracket):
                    self.look_up(where, crate, name, calls)

    def look_up(self, where, crate, name, calls):
        owner, _, last = name.rpartition("::")
        if owner in self.crates:
            crate, calls = owner, []
        if not self.crates[crate].has(last or name, calls):
            self.complain(f"{where}: {crate} has no `{name}`" + (f" of {', '.join(calls)}" if calls else ""))

    def check_calls(self, crate):
        """Each function that the crate's root gives away, and each law, is named in its README."""
        text = (ROOT / "crates" / crate / "README.md").read_text(encoding="utf-8")
        said = set(re.findall(r"\w+", " ".join(QUOTED.findall(text))))
        root = ROOT / "crates" / crate / "src" / "lib.rt"
        if not root.exists():
            return
        given = re.findall(r"pub use \w+::(?:\{([^}]*)\}|(\w+))", root.read_text(encoding="utf-8"))
        names = {name for group in given for part in group for name in re.findall(r"\w+", part)}
        laws = root.with_name("laws.rt")
        if laws.exists():
            names |= set(re.findall(r"^pub fn (\w+)", laws.read_text(encoding="utf-8"), re.M))
        names |= set(re.findall(r"^pub fn (\w+)", root.read_text(encoding="utf-8"), re.M))
        for name in sorted(names):
            if name in self.crates[crate].clauses and name not in said:
                self.complain(f"crates/{crate}/README.md says nothing of `{name}`")


def main():
    checker = Checker()
    for crate in checker.crates:
        readme = ROOT / "crates" / crate / "README.md"
        if readme.exists():
            checker.check(readme, crate)
            checker.check_calls(crate)
        else:
            checker.complain(f"crates/{crate} has no README.md")
    checker.check(ROOT / "docs" / "PROVED.md", "pv_top")
    sys.exit(1 if checker.faults else 0)


if __name__ == "__main__":
    main()
