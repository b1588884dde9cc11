#!/usr/bin/env python3
"""Checks that each public call of a library whose clauses are no equation of its answer is made by a crate of contract tests.

A public call is a `pub fn` of a crate of code that its root file gives away, or a method of a type that it gives away. Such a call needs no
contract test where its clauses leave nothing but one answer by their form:

- a law, which returns nothing and changes nothing;
- a call one of whose clauses is `result ≡ ..`, or `IfOk result (λ x. x ≡ ..)` where only memory can be lacking; `.now` and `.items` behind
  `result` or `x` count as nothing; or one that begins with a word of EQUATIONS, which says the same of the answer and of what is left;
- a call each of whose clauses is an equation of what is seen of its answer (`view result ≡ ..`, `view .. ≡ Some (.. result)`), the same
  within `IfOk`, `OnOk` and `OnErr` where only memory can be lacking, or one of what a call without an answer leaves (`x.new ≡ ..`).

Each other call needs one in src/ of a crate `pv_contracts_..`, as `crate::call(`, `Type::call(` or `.call(` in a file that imports the type.
What else needs none stands in EXCEPTIONS, each with its reason. An exception that nothing needs is a fault.

Usage: tools/check-contracts.py, anywhere. Each fault is a line on standard error, and the status is then 1. The last line counts."""
import pathlib
import re
import sys

ROOT = pathlib.Path(__file__).resolve().parent.parent
CRATES = ROOT / "crates"
APART = ("pv_rows", "pv_contracts_")

# Words of definitions that say by an equation what an answer is and what the call leaves.
EQUATIONS = {"Finds", "Gives", "Leaves", "Pops"}

NEAREST = "its clause is that of `wrong_label`, the nearest place of a rule; `check` of pv_rules, which is tested, is proved from it"
READING = "`parse` of pv_scl_parse and of pv_stl_parse and `expression`, which are tested, say the same of their languages and are proved from it"
COPYING = "it says by equations what stands in the vector after the call, or what each field of the answer is; `inline` of pv_inline, which is tested, is proved from it"
LEARNING = "`solve` of pv_solver, which is tested, is proved from it"
EXCEPTIONS = {
    "pv_call_terms::Places::of_callee": COPYING,
    "pv_call_terms::Places::of_entry": COPYING,
    "pv_call_terms::add_deeds": COPYING,
    "pv_call_terms::add_terms": COPYING,
    "pv_learn::Draft::new": LEARNING,
    "pv_learn::look_at": LEARNING,
    "pv_learn::make_last": LEARNING,
    "pv_learn::make_lemma": LEARNING,
    "pv_ll::recognize_sample": "`recognize`, which is tested, at one grammar",
    "pv_parse_source::*": READING,
    "pv_rules_call::call_too_deep": NEAREST,
    "pv_rules_decl::*": NEAREST,
    "pv_rules_expr::*": NEAREST,
    "pv_rules_instr::*": NEAREST,
    "pv_scl_parse::scl_expression": "`scl`, which is tested, from another start",
    "pv_scl_parse::scl_name": "`scl`, which is tested, from another start",
}

CLAUSE = re.compile(r"\s*(ghost|requires|ensures)(\*?)(?:\s+(\w+))?\s*:?\s*\{")
FUNCTION = re.compile(r"^([ \t]*)pub (?:const )?fn (\w+)", re.MULTILINE)
OWNER = re.compile(r"^impl(?:<[^>]*>)?\s+(\w+)", re.MULTILINE)
GIVEN = re.compile(r"\bpub use ([\w:]+)::(\{[^}]*\}|\w+);")
TAKEN = re.compile(r"\buse (pv_\w+)(?:::\w+)*::(\{[^}]*\}|\w+);")


def bare(text):
    """The text without comments, and with nothing in its literals."""
    out, at = [], 0
    literal = re.compile(r'//[^\n]*|"(?:\\.|[^"\\])*"|b?\'(?:\\.|[^\\\'])\'')
    for found in literal.finditer(text):
        out.append(text[at:found.start()])
        out.append("" if found.group().startswith("//") else '""')
        at = found.end()
    return "".join(out) + text[at:]


def closing(text, at):
    """Where the bracket at this index is closed."""
    opened, closed = text[at], {"(": ")", "[": "]", "{": "}", "<": ">"}[text[at]]
    depth = 0
    for i in range(at, len(text)):
        if text[i] == opened:
            depth += 1
        elif text[i] == closed and text[i - 1] != "-":
            depth -= 1
            if depth == 0:
                return i
    raise ValueError("a bracket isn't closed")


def names_in(group):
    """The names of a list of imports, each as it is called there."""
    parts = (part.split(" as ")[-1].strip() for part in group.strip("{}").split(","))
    return {part.split("::")[-1] for part in parts if part}


class Call:
    """A public function: its name, its owner, its parameters, what it returns and its clauses."""

    def __init__(self, module, owner, text, found):
        self.module, self.owner, self.name = module, owner, found.group(2)
        at = found.end()
        if text[at] == "<":
            at = closing(text, at) + 1
        end = closing(text, at)
        self.params = text[at:end + 1]
        self.clauses = []
        head = end + 1
        body = text.index("{", head)
        first = re.compile(r"\s(?:ghost|requires|ensures)\b").search(text, head, body)
        self.returns = text[head:first.start() if first else body].strip()
        head = first.start() if first else body
        while found := CLAUSE.match(text, head):
            end = closing(text, found.end() - 1)
            if found.group(1) == "ensures":
                self.clauses.append(" ".join(text[found.end():end].split()))
            head = end + 1

    def is_law(self):
        return not self.returns and "&mut" not in self.params

    def is_equation(self):
        """Whether the clauses leave one answer by their form."""
        parts = [said(clause, self.returns) for clause in self.clauses]
        return "whole" in parts or all(parts)


def outside(text, signs):
    """The first of the signs that stands outside brackets, by its index, else -1."""
    depth = 0
    for i, sign in enumerate(text):
        if sign in "([{":
            depth += 1
        elif sign in ")]}":
            depth -= 1
        elif depth == 0 and sign in signs:
            return i
    return -1


def equation(text, name):
    """Whether the text is an equation of what is called so ('whole') or of what is seen of it ('view'), else None."""
    if outside(text, "→↔×⊎") >= 0:
        return None
    at = outside(text, "≡")
    if at < 0:
        return None
    sides = [text[:at].strip(), text[at + 1:].strip()]
    speaks = [bool(re.search(rf"(?<![\w.]){re.escape(name)}(?![\w'])", side)) for side in sides]
    if speaks[0] == speaks[1]:
        return None
    side = sides[0] if speaks[0] else sides[1]
    return "whole" if re.fullmatch(rf"{re.escape(name)}(\.now|\.items)?", side) else "view"


def said(clause, returns):
    """What sort of equation of the call's answer a clause is, else None."""
    while clause.startswith("let ") and " in " in clause:
        clause = clause.split(" in ", 1)[1]
    if clause.split(" ", 1)[0] in EQUATIONS:
        return "whole"
    if found := re.fullmatch(r"IfOk result \(λ (\w+)\. (.*)\)", clause):
        return equation(found.group(2), found.group(1)) if "AllocError" in returns else None
    if found := re.fullmatch(r"On(?:Ok|Err) result \((.*)\)", clause):
        return left_by(found.group(1)) if "AllocError" in returns else None
    return equation(clause, "result") if returns else left_by(clause)


def left_by(clause):
    """Whether a clause is an equation of what the call leaves."""
    at = outside(clause, "≡")
    if at < 0 or outside(clause, "→↔×⊎") >= 0:
        return None
    return "view" if ".new" in clause[:at] and ".new" not in clause[at:] else None


def root_gives(text):
    """What a crate's root file gives away: the modules that are public, and names by their module."""
    modules = set(re.findall(r"^pub mod (\w+)", text, re.MULTILINE))
    names = {}
    for path, group in GIVEN.findall(text):
        names.setdefault(path.split("::")[0], set()).update(names_in(group))
    return modules, names


def calls_of(crate):
    """The public calls of a crate that its root file gives away."""
    root = CRATES / crate / "src" / "lib.rt"
    if not root.exists():
        return
    modules, names = root_gives(bare(root.read_text(encoding="utf-8")))
    types = set().union(*names.values()) if names else set()
    for file in sorted((CRATES / crate / "src").glob("**/*.rt")):
        module = file.relative_to(CRATES / crate / "src").parts[0].removesuffix(".rt")
        text = bare(file.read_text(encoding="utf-8"))
        owners = [(found.start(), found.group(1)) for found in OWNER.finditer(text)]
        for found in FUNCTION.finditer(text):
            inside = [owner for at, owner in owners if at < found.start()] if found.group(1) else []
            owner = inside[-1] if inside else None
            given = module in modules or module == "lib"
            if given or (owner in types if owner else found.group(2) in names.get(module, ())):
                yield Call(module, owner, text, found)


def tested():
    """What the crates of contract tests call: functions by crate, and methods by crate and type."""
    found = set()
    for file in sorted(CRATES.glob("pv_contracts_*/src/**/*.rt")):
        text = bare(file.read_text(encoding="utf-8"))
        found.update((crate, None, name) for crate, name in re.findall(r"\b(pv_\w+)::(?:\w+::)*?(\w+)\(", text))
        for crate, group in TAKEN.findall(text):
            for name in names_in(group):
                found.update((crate, name, call) for call in re.findall(rf"\b{name}::(\w+)\(", text))
                found.update((crate, name, call) for call in re.findall(r"\.(\w+)\(", text))
                if re.search(rf"(?<![\w:.]){name}\(", text):
                    found.add((crate, None, name))
    return found


def main():
    lines = (ROOT / "crates.txt").read_text(encoding="utf-8").splitlines()
    crates = [line.split(":")[0].split()[0] for line in lines if re.match(r"\w", line)]
    made, used, faults, count, excepted = tested(), set(), 0, 0, 0
    for crate in crates:
        if crate.startswith(APART):
            continue
        for call in calls_of(crate):
            if call.is_law() or not call.clauses or call.is_equation():
                continue
            count += 1
            if (crate, call.owner, call.name) in made:
                continue
            path = "::".join(part for part in (crate, call.owner, call.name) if part)
            key = next((key for key in (path, f"{crate}::*") if key in EXCEPTIONS), None)
            if key:
                used.add(key)
                excepted += 1
                continue
            faults += 1
            print(f"check-contracts: {path} has no contract test, and no clause is an equation of its answer", file=sys.stderr)
    for key in sorted(EXCEPTIONS.keys() - used):
        faults += 1
        print(f"check-contracts: the exception {key} is needed no more", file=sys.stderr)
    print(f"check-contracts: {count} public calls whose clauses are no equation; {count - excepted - faults} tested, {excepted} excepted")
    sys.exit(1 if faults else 0)


if __name__ == "__main__":
    main()
