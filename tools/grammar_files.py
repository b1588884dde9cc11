#!/usr/bin/env python3
"""Writes the files that hold the grammars of SCL and of STL, from crates/pv_scl_parse/grammar/scl.txt and
crates/pv_stl_parse/grammar/stl.txt.

    tools/grammar_files.py          at the top of the repository

The numbers of kinds, and the front that both share, up to the name FRONT, go to pv_parse; the rest and the table to the
language's own crate. Each number, body and set is what tools/ll_table.py writes; this script only parts its lines by crate, and
stops where the two files don't begin alike. Nothing of it is trusted. Run `rt fmt` in the crates that it writes to.
"""
import re
import subprocess
import sys

SOURCE = "crates/pv_scl_parse/grammar/scl.txt"
EXPRESSIONS, FRONT = "source", "body"  # the first name after expressions, and the first of the language's own


class Language:
    """A language: its grammar's file, its crate, and what its files say of themselves."""

    def __init__(self, name, source, productions, title, bodies, starts):
        self.name, self.source, self.productions, self.title, self.bodies, self.starts = name, source, productions, title, bodies, starts
        self.crate = f"pv_{name}_parse"
        self.written = f"Written by tools/grammar_files.py from {source}."
        self.spelled = name.upper()


SCL = Language("scl", SOURCE, "statement_productions", "bodies, statements and calls", "bodies and statements", "a source, an expression or a name")
STL = Language("stl", "crates/pv_stl_parse/grammar/stl.txt", "instruction_productions", "bodies, instructions and calls", "bodies and instructions", "a source")
WRITTEN = SCL.written


def run(language, *words):
    return subprocess.run(["tools/ll_table.py", language.source, language.name, *words], check=True, capture_output=True, text=True).stdout


def write(path, lines):
    with open(path, "w", encoding="utf-8") as out:
        out.write("\n".join(lines).rstrip() + "\n")


def wrapped(head, words, tail):
    """One import."""
    return [head + ", ".join(words) + tail] if words else []


def kind_comments():
    """The comment above each line of kinds, by the line's first kind."""
    found, above = {}, None
    for line in open(SOURCE, encoding="utf-8"):
        if line.startswith("#"):
            above = line[1:].strip()
        elif line.startswith("token"):
            if above:
                found[line.split()[1]] = above
            above = None
    return found


def numbers(pairs, comments=()):
    lines = []
    for word, value in pairs:
        if word in comments:
            lines.append(f"-- {comments[word]}")
        lines += [f"abbrev pub {word} : ℕ", f"{word} = {value}", ""]
    return lines


def productions(called, title, items):
    return [f"-- {title}", f"abbrev pub {called} : Grammar", f"{called} =", *items, "    []", ""]


def used(items):
    return {word for item in items for word in re.findall(r"[a-z_0-9]+", item)}


def imports(items, kinds, front, own, crate):
    words = used(items)
    return [
        "use Rattle.std.specs.Prelude.{[], ◌∷◌, ◌++◌}",
        "use Rattle.pv_ll.specs.declared.table.Symbol.TheVariants.{Token, Name}",
        "use Rattle.pv_ll.specs.Grammar.{Grammar, ◌⟶◌}",
        *wrapped("use Rattle.pv_parse.specs.KindNumbers.{", [w for w, _ in kinds if w in words], "}"),
        *wrapped("use Rattle.pv_parse.specs.FrontNames.{", [w for w, _ in front if w in words], "}"),
        *wrapped(f"use Rattle.{crate}.specs.OwnNames.{{", [w for w, _ in own if w in words], "}"),
    ]


class Parts:
    """What tools/ll_table.py says of a language's grammar, in parts."""

    def __init__(self, language):
        spec = run(language, "--spec").split("\n")
        values = [(m[1], int(m[2])) for m in (re.match(r"([a-z_0-9]+) = (\d+)$", line) for line in spec) if m]
        names_at = spec.index("-- names")
        kind_count = sum(1 for line in spec[:names_at] if re.match(r"[a-z_0-9]+ = \d+$", line))
        self.kinds, names = values[:kind_count], values[kind_count:]
        items = [line for line in spec if line.startswith("    (")]
        name_of = lambda item: re.match(r"    \(([a-z_0-9]+) ", item)[1]
        order = [word for word, _ in names]
        of_front = order.index(FRONT)
        self.expressions = [i for i in items if order.index(name_of(i)) < order.index(EXPRESSIONS)]
        self.declarations = [i for i in items if order.index(EXPRESSIONS) <= order.index(name_of(i)) < of_front]
        self.own = [i for i in items if order.index(name_of(i)) >= of_front]
        self.front_names, self.own_names = names[: of_front + 2], names[of_front + 2 :]
        parts, *rest = run(language, "--constants").split("\n\n")
        blocks = ["\n\n".join(rest[i : i + 2]) for i in range(0, len(rest), 2)]
        self.uses = [line for line in parts.split("\n") if line.startswith("use")]
        count = len(self.expressions) + len(self.declarations)
        self.front_bodies, self.own_bodies = blocks[:count], blocks[count:]

    def front(self):
        return self.kinds, self.front_names, self.expressions, self.declarations


def write_front(parts):
    """The files of the front."""
    kinds, names, expressions, declarations = parts.front()
    base = "crates/pv_parse/specs/"
    head = ["-- The kinds of tokens that the grammars of SCL and STL tell apart, by their numbers: one list for", f"-- both. {WRITTEN}"]
    write(base + "KindNumbers.antt", head + ["use Rattle.std.specs.Prelude.{ℕ}", ""] + numbers(kinds, kind_comments()))
    head = ["-- The names of the grammar that SCL and STL share, by their numbers; the last two have bodies of each", f"-- language's own. {WRITTEN}"]
    write(base + "FrontNames.antt", head + ["use Rattle.std.specs.Prelude.{ℕ}", ""] + numbers(names))
    head = [
        "-- The grammar that SCL and STL share, as LL(1) productions: expressions, then blocks and declarations.",
        "-- A chain of operators of one priority is its first operand and a tail of links.",
        f"-- {WRITTEN}",
    ]
    write(
        base + "Front.antt",
        head
        + imports(expressions + declarations, kinds, names, [], "")
        + [""]
        + productions("expression_productions", "expressions and operands", expressions)
        + productions("declaration_productions", "blocks, declarations, values of data blocks, and what calls share", declarations)
        + ["-- the productions that have the same numbers in both languages", "abbrev pub front : Grammar", "front = expression_productions ++ declaration_productions"],
    )
    title = "-- The number and the body of each alternative of the grammar that SCL and STL share."
    write(base + "FrontBodies.antt", [title, f"-- {WRITTEN}", *parts.uses, "", "\n\n".join(parts.front_bodies)])


def write_language(language, parts, other):
    """The files of a language's own part."""
    base = f"crates/{language.crate}/specs/"
    head = [f"-- The names of {language.spelled}'s grammar behind those that {other.spelled} shares, by their numbers.", f"-- {language.written}"]
    write(base + "OwnNames.antt", head + ["use Rattle.std.specs.Prelude.{ℕ}", ""] + numbers(parts.own_names))
    head = [
        f"-- The grammar of {language.spelled}, as LL(1) productions: the front that {other.spelled} shares, then {language.bodies}.",
        f"-- {language.written}",
    ]
    grammar = f"{language.name}_grammar"
    write(
        base + f"{language.name.capitalize()}Grammar.antt",
        head
        + imports(parts.own, parts.kinds, parts.front_names, parts.own_names, language.crate)
        + ["use Rattle.pv_parse.specs.Front.{front}", ""]
        + productions(language.productions, language.title, parts.own)
        + ["-- the whole grammar", f"abbrev pub {grammar} : Grammar", f"{grammar} = front ++ {language.productions}"],
    )
    title = f"-- The number and the body of each alternative of {language.spelled}'s grammar behind those that {other.spelled} shares."
    write(base + "OwnBodies.antt", [title, f"-- {language.written}", *parts.uses, "", "\n\n".join(parts.own_bodies)])
    starts = "a function for each name that a text may be: " if "," in language.starts else "for a text that is "
    head = [
        f"//! The table of {language.spelled}'s grammar, {'with ' if ',' in language.starts else ''}{starts}{language.starts}.",
        "ghost use Rattle.std.specs.Prelude.{◌≡◌, IsTrue};",
        "ghost use Rattle.pv_ll.specs.Check.{is_ll1};",
        "ghost use Rattle.pv_ll.specs.Table.{grammar_of};",
        f"ghost use Rattle.{language.crate}.specs.{language.name.capitalize()}Grammar.{{{grammar}}};",
        "",
        "use pv_ll::{Alternative, Language, Rule, Symbol};",
        "",
        f"// {language.written}",
    ]
    write(f"crates/{language.crate}/src/table.rt", head + run(language).split("\n")[1:])


def main():
    scl, stl = Parts(SCL), Parts(STL)
    if scl.front() != stl.front():
        sys.exit(f"{SCL.source} and {STL.source} don't begin with the same kinds and alternatives")
    write_front(scl)
    write_language(SCL, scl, STL)
    write_language(STL, stl, SCL)


main()
