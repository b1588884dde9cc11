#!/usr/bin/env python3
"""Writes the LL(1) table of a readable grammar, for the crate pv_ll.

    tools/ll_table.py GRAMMAR.txt NAME > TABLE.rt               the table, with a function that returns it for each start
    tools/ll_table.py GRAMMAR.txt NAME --spec > NAME.antt       the grammar as a definition, to be read and kept by hand
    tools/ll_table.py GRAMMAR.txt NAME --constants > BODIES.antt    each alternative's number and body, for proofs
    tools/ll_table.py GRAMMAR.txt NAME --lists > LISTS.antt     the words behind names and alternatives, as lists

A grammar file has a line 'token KIND KIND ..' (or several), a line 'start NAME NAME ..' with each name that a whole text may
be, and a line for each name, 'NAME = BODY | BODY | ..', where a body is the words of tokens and names, and an empty body
derives nothing. A line that begins with a blank goes on with the one before it; '#' begins a comment. Kinds, names and
alternatives are numbered in the order in which they stand. Conflicts, left recursion and names that derive nothing are named
on standard error, and the status is then 1. Nothing here is trusted: `is_ll1` tests the table, and clauses tie it to the
grammar and the lists in specs/.

Starts share one table. The first one's function is called NAME, a later one's NAME_START; each returns the same arrays with
its own start, and each is tested by `is_ll1` for itself.

Words in braces say what is made along a walk, and may be left out in the whole file:

    NAME {SORT} = BODY {ACTION} | BODY {ACTION} | ..
    NAME {SORT : SHAPE SHAPE .. -> SHAPE ..} = ..

SORT is a term, the name's entry of NAME_sorts; where SHAPEs stand (terms too), NAME_takes and NAME_puts have for each name
those that it takes off the top of the stack and those that it puts there, the top first, and none for a name without.
ACTION is a variant of the crate's enum Action with its arguments after it: `Link Op.Or` is `Action::Link(Op::Or)` in the
table and `Action.Link Op.Or` in the list NAME_actions; a body without one has `Keep`. The table then has the array ACTIONS,
and a function NAME_actions, whose clause ties it to that list.

The constants of NAME's alternatives, counted from 1, are NAME_1 (its number) and NAME_1_body, and so on. The lines of --spec
and --lists go after imports that are written by hand; --constants has its own.
"""
import sys


def fail(messages):
    for message in messages:
        print(message, file=sys.stderr)
    sys.exit(1)


def marked(text):
    """A text without the words in braces at its end, and these words, or none."""
    if "{" not in text:
        return text.split(), None
    front, mark = text.split("{", 1)
    words, rest = mark.split("}", 1)
    if rest.strip():
        fail([f"{text.strip()}: words after braces"])
    return front.split(), words.strip()


class Grammar:
    """A grammar file: kinds, starts, the bodies of each name, and the words in braces."""

    def __init__(self, path):
        self.kinds, self.starts, self.rules, self.sorts, self.actions = [], [], {}, {}, {}
        for line in self.lines(path):
            words = line.split()
            if words[0] == "token":
                self.kinds += words[1:]
            elif words[0] == "start":
                self.starts += words[1:]
            else:
                self.rule(*line.split("=", 1))
        problems = list(self.problems())
        if problems:
            fail(problems)

    def lines(self, path):
        found = []
        for raw in open(path, encoding="utf-8"):
            text = raw.split("#")[0].rstrip()
            if text and text[0].isspace() and found:
                found[-1] += " " + text.strip()
            elif text:
                found.append(text)
        return found

    def rule(self, front, bodies):
        words, sort = marked(front)
        name = " ".join(words)
        self.sorts[name] = self.sorts.get(name) or sort
        for text in bodies.split("|"):
            body, action = marked(text)
            self.rules.setdefault(name, []).append(body)
            self.actions.setdefault(name, []).append(action)

    def problems(self):
        used = {word for bodies in self.rules.values() for body in bodies for word in body}
        yield from (f"{word}: neither a token nor a name" for word in sorted(used - set(self.kinds) - set(self.rules)))
        yield from (f"{word}: both a token and a name" for word in self.kinds if word in self.rules)
        yield from (f"{start}: the start is no name" for start in self.starts or ["none"] if start not in self.rules)
        if any(self.sorts.values()):
            yield from (f"{name}: no sort" for name, sort in self.sorts.items() if not sort)
        if len(self.kinds) > 127 or len(self.rules) > 256:
            yield "more than 127 token kinds or 256 names"

    def alternatives(self):
        """Each alternative: its name, its number among the name's, its body and its action."""
        for name, bodies in self.rules.items():
            for number, (body, action) in enumerate(zip(bodies, self.actions[name]), 1):
                yield name, number, body, action or "Keep"

    def has_actions(self):
        return any(any(actions) for actions in self.actions.values())


class Table:
    """The sets of a grammar, by rounds until nothing changes."""

    def __init__(self, grammar):
        self.grammar, self.kinds, self.starts, self.rules = grammar, grammar.kinds, grammar.starts, grammar.rules
        self.end = len(self.kinds)
        rules = self.rules
        self.nullable = {name: False for name in rules}
        self.first = {name: set() for name in rules}
        self.follow = {name: set() for name in rules}
        for start in self.starts:
            self.follow[start].add(self.end)
        self.rounds(self.first_round)
        self.rounds(self.follow_round)
        self.weight = {}

    def rounds(self, one):
        while one():
            pass

    def next(self, after, body):
        """The kinds that can come next before a body, where these kinds can come after it."""
        found = set()
        for word in body:
            if word not in self.rules:
                return found | {self.kinds.index(word)}
            found |= self.first[word]
            if not self.nullable[word]:
                return found
        return found | after

    def first_round(self):
        changed = False
        for name, bodies in self.rules.items():
            for body in bodies:
                first = self.first[name] | self.next(set(), body)
                null = self.nullable[name] or all(self.nullable.get(word, False) for word in body)
                changed |= first != self.first[name] or null != self.nullable[name]
                self.first[name], self.nullable[name] = first, null
        return changed

    def follow_round(self):
        changed = False
        for name, bodies in self.rules.items():
            for body in bodies:
                for place, word in enumerate(body):
                    if word in self.rules:
                        follow = self.follow[word] | self.next(self.follow[name], body[place + 1 :])
                        changed |= follow != self.follow[word]
                        self.follow[word] = follow
        return changed

    def weigh(self, name, above=()):
        """One more than the heaviest front of its bodies."""
        if name in above:
            fail([f"{name}: left recursion by " + ", ".join(above[above.index(name) :])])
        if name not in self.weight:
            self.weight[name] = 1 + max(self.front(body, above + (name,)) for body in self.rules[name])
        return self.weight[name]

    def front(self, body, above):
        total = 0
        for word in body:
            if word not in self.rules:
                break
            total += self.weigh(word, above)
            if not self.nullable[word]:
                break
        return total

    def conflicts(self):
        names = self.kinds + ["the end"]
        for name, bodies in self.rules.items():
            taken = {}
            for number, body in enumerate(bodies):
                for kind in sorted(self.next(self.follow[name], body)):
                    if kind in taken:
                        yield (
                            f"{name}: {names[kind]} takes alternative {taken[kind] + 1} "
                            f"({' '.join(bodies[taken[kind]]) or 'nothing'}) and {number + 1} ({' '.join(body) or 'nothing'})"
                        )
                    taken.setdefault(kind, number)

    def dead(self):
        live = set()
        while True:
            more = {
                name
                for name, bodies in self.rules.items()
                if any(all(word not in self.rules or word in live for word in body) for body in bodies)
            }
            if more == live:
                return [f"{name}: derives no list of tokens" for name in self.rules if name not in live]
            live = more


def mask(kinds):
    return hex(sum(1 << kind for kind in kinds))


def table_text(table, source, function):
    number = {name: i for i, name in enumerate(table.rules)}
    kind = {word: i for i, word in enumerate(table.kinds)}
    rules, alternatives, symbols = [], [], []
    for name, bodies in table.rules.items():
        begin = len(alternatives)
        for body in bodies:
            at = len(symbols)
            symbols += [f"Name({number[w]})" if w in number else f"Token({kind[w]})" for w in body]
            alternatives.append(
                f"    // {name} = {' '.join(body)}".rstrip() + "\n"
                f"    Alternative {{\n        name: {number[name]},\n        when: {mask(table.next(table.follow[name], body))},\n"
                f"        from: {at},\n        to: {len(symbols)},\n    }},"
            )
        rules.append(
            f"    // {name}\n    Rule {{\n        nullable: {str(table.nullable[name]).lower()},\n        first: {mask(table.first[name])},\n"
            f"        follow: {mask(table.follow[name])},\n        weight: {table.weigh(name)},\n        from: {begin},\n"
            f"        to: {len(alternatives)},\n    }},"
        )
    out = [f"// Written by tools/ll_table.py from {source}: change that file, and write this one again."]
    out += [f"const RULES: [Rule; {len(rules)}] = [", *rules, "];", ""]
    out += [f"const ALTERNATIVES: [Alternative; {len(alternatives)}] = [", *alternatives, "];", ""]
    out += [f"const SYMBOLS: [Symbol; {len(symbols)}] = [", *[f"    Symbol::{s}," for s in symbols], "];", ""]
    out += actions_text(table.grammar, function)
    for place, start in enumerate(table.starts):
        called = f"{function}_{start}" if place else function
        out += [
            f"/// The table of the grammar, for a text that is one `{start}`." if len(table.starts) > 1 else "/// The table of the grammar.",
            f"pub fn {called}() -> Language",
            "    ensures ll1 { IsTrue (is_ll1 result) }",
            f"    ensures grammar {{ grammar_of result ≡ {function}_grammar }}",
            f"    ensures start {{ result.start ≡ {number[start]} }}",
            "{",
            "    Language {\n        rules: &RULES,\n        alternatives: &ALTERNATIVES,\n        symbols: &SYMBOLS,",
            f"        start: {number[start]},\n        kinds: {table.end},\n    }}\n}}",
            "",
        ]
    return "\n".join(out).rstrip()


def in_code(action):
    """An action, as the code has it."""
    head, *arguments = action.replace(".", "::").split()
    return f"Action::{head}" + (f"({', '.join(arguments)})" if arguments else "")


def actions_text(grammar, function):
    if not grammar.has_actions():
        return []
    lines = [
        f"    // {name} = {' '.join(body)}".rstrip() + f"\n    {in_code(action)}," for name, _, body, action in grammar.alternatives()
    ]
    return [
        f"const ACTIONS: [Action; {len(lines)}] = [",
        *lines,
        "];",
        "",
        "/// What each alternative does, by its number.",
        f"pub fn {function}_actions() -> &'static [Action]",
        f"    ensures {{ result.now ≡ {function}_actions }}",
        "{",
        "    &ACTIONS\n}",
        "",
    ]


def spec_text(table, function):
    lines = []
    for title, words in (("token kinds", table.kinds), ("names", list(table.rules))):
        lines.append(f"-- {title}")
        for value, word in enumerate(words):
            lines += [f"abbrev pub {word} : ℕ", f"{word} = {value}"]
        lines.append("")
    lines += [f"abbrev pub {function}_grammar : Grammar", f"{function}_grammar ="]
    for name, bodies in table.rules.items():
        for body in bodies:
            text = "".join(f"{'Name' if w in table.rules else 'Token'} {w} ∷ " for w in body)
            lines.append(f"    ({name} ⟶ {text}[]) ∷")
    return "\n".join(lines + ["    []"])


def constants_text(table, source):
    number = {name: i for i, name in enumerate(table.rules)}
    kind = {word: i for i, word in enumerate(table.kinds)}
    lines = [
        f"-- The number and the body of each alternative. Written by tools/ll_table.py from {source}.",
        "use Rattle.std.specs.Prelude.{ℕ, List, [], ◌∷◌}",
        "use Rattle.pv_ll.specs.declared.table.Symbol.{Symbol}",
        "use Rattle.pv_ll.specs.declared.table.Symbol.TheVariants.{Token, Name}",
    ]
    for k, (name, place, body, _) in enumerate(table.grammar.alternatives()):
        text = "".join(f"Name {number[w]} ∷ " if w in number else f"Token {kind[w]} ∷ " for w in body)
        called = f"{name}_{place}"
        if called in number or called in kind:
            fail([f"{called}: a word of the grammar, and the constant of an alternative"])
        lines += ["", f"-- {name} = {' '.join(body)}".rstrip(), f"abbrev pub {called} : ℕ", f"{called} = {k}", ""]
        lines += [f"abbrev pub {called}_body : List Symbol", f"{called}_body = {text}[]"]
    return "\n".join(lines)


def as_list(title, called, kind, items):
    return [f"-- {title}", f"abbrev pub {called} : List {kind}", f"{called} =", *[f"    {item} ∷" for item in items], "    []", ""]


def as_term(text):
    return f"({text})" if " " in text else text


def lists_text(table, function):
    grammar = table.grammar
    lines = []
    if grammar.has_actions():
        actions = [as_term("Action." + action) for _, _, _, action in grammar.alternatives()]
        lines += as_list("what each alternative does, by its number", f"{function}_actions", "Action", actions)
    if not any(grammar.sorts.values()):
        return "\n".join(lines).rstrip()
    parts = [(sort.split(":", 1) + [""])[:2] for sort in grammar.sorts.values()]
    lines += as_list("the sort of each name, by its number", f"{function}_sorts", "Sort", [as_term(sort.strip()) for sort, _ in parts])
    if any(shapes for _, shapes in parts):
        sides = [(shapes.split("->", 1) + [""])[:2] for _, shapes in parts]
        for which, (title, called) in enumerate((("takes off", "takes"), ("puts on", "puts"))):
            items = [as_term("".join(word + " ∷ " for word in side[which].split()) + "[]") for side in sides]
            lines += as_list(f"the shapes that each name {title} the stack", f"{function}_{called}", "(List ℕ)", items)
    return "\n".join(lines).rstrip()


def main():
    if len(sys.argv) not in (3, 4) or sys.argv[3:] not in ([], ["--spec"], ["--constants"], ["--lists"]):
        fail([__doc__])
    path, function, what = sys.argv[1], sys.argv[2], "".join(sys.argv[3:])
    table = Table(Grammar(path))
    for name in table.rules:
        table.weigh(name)
    problems = table.dead() + list(table.conflicts())
    if problems:
        fail(problems)
    if what == "--spec":
        print(spec_text(table, function))
    elif what == "--constants":
        print(constants_text(table, path))
    elif what == "--lists":
        print(lists_text(table, function))
    else:
        print(table_text(table, path, function))


main()
