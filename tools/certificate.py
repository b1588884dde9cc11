#!/usr/bin/env python3
"""Makes a certificate of 'satisfied' at k = 0 out of a proof.

usage: tools/certificate.py CASE > CASE.cnf                 the formula
       tools/certificate.py CASE PROOF > CERTIFICATE        the certificate
       tools/certificate.py --help                          this text

CASE is the file that `plcv` reads too: it names the source, the block and the requirement (docs/TUTORIAL.md has one).

The formula is true where one scan, begun in some state, breaks the requirement. Any state counts, also one that no run
reaches: that is 'k = 0'. Its variables are numbers. 1 is true; from 2 on there is one for each variable of the block,
its value at the scan's beginning, in the order of the declarations; the others are what the scan makes of them. A
clause is variables, '-' before one that is negated, and a 0 at the end: at least one of them holds. The text is
DIMACS, which solvers read: a line 'p cnf VARIABLES CLAUSES', and the clauses, one a line.

PROOF is a text with a clause a line, which shows that nothing makes the formula true. Each clause has to follow from
the formula and the clauses before it by unit propagation: say that all of its numbers are false; then where a clause
has all numbers false but one, that one is true, and so on, until a clause has all numbers false. The last one is
the empty clause, the line '0'. The certificate is the proof with its hints, the clauses by which each one follows. This
tool finds them, numbers the clauses anew, and leaves out what nothing rests on.

Without a solver: for a small block the one line '0' often is the whole proof.

    echo 0 > PROOF
    tools/certificate.py CASE PROOF > CERTIFICATE

Where it isn't enough for a requirement 'A AND B', it may be for A and for B, each in a case of its own.

With one: any solver that writes a DRAT text (clauses added and deleted), called so that each of its clauses follows as
said above. Lines with 'd' (deletions) and 'c' (comments) are passed over.

    tools/certificate.py CASE > CASE.cnf
    cadical --plain --no-binary CASE.cnf PROOF
    tools/certificate.py CASE PROOF > CERTIFICATE

Says the solver UNSATISFIABLE, the proof is there. Says it SATISFIABLE, then one scan from some state breaks the
requirement, and there is no certificate at k = 0; variables 2 and on of its answer tell the state and the inputs.

And then `./plcv recheck CASE CERTIFICATE` makes the formula anew from the source and checks each line. Nothing here is
trusted.

Files are named from the folder in which the tool is called, also the source that the case names. A refusal is one line
on standard error with status 1, and the file that the shell made for the output is empty; wrong words have status 2. It
tells what of a case, a source or a requirement isn't of the form that certificates are for, where plcv only says `plcv: form`;
it doesn't look for everything. docs/CERTIFICATES.md goes through it step by step, docs/FORMATS.md has the forms."""
import json
import os
import re
import sys

TRUE = 1
MEMBERS = ["version", "name", "sources", "entry", "pattern", "loopBound", "depth", "lemmas", "regionWords", "reduce"]
# Members that may stand there, empty.
EMPTY = {"params": [], "bind": {}, "symbols": {}}
WORD = re.compile(r'\s*((?:OB|FB|FC|DB|UDT)\s+[0-9]+|[A-Za-z_][A-Za-z0-9_]*|"[^"\n]*"|:=|[&():;,])', re.I)
# Comments and attributes, then what a header line is told by.
PIECE = re.compile(r'(?P<dropped>\(\*.*?\*\)|//[^\n]*|\{[^}]*\})|(?P<word>[A-Za-z_][A-Za-z0-9_]*)|"[^"\n]*"|.', re.S)
HEADER = {"TITLE", "AUTHOR", "FAMILY", "NAME", "VERSION", "KNOW_HOW_PROTECT"}
HEAD_ENDS = {"VAR", "VAR_INPUT", "VAR_OUTPUT", "VAR_IN_OUT", "VAR_TEMP", "CONST", "STRUCT", "BEGIN"}
FORM = "docs/FORMATS.md has the form that `recheck` takes"
# Words that are no variables' names; docs/FORMATS.md has the whole list.
NO_NAMES = set("""AND OR NOT XOR MOD DIV TRUE FALSE FUNCTION_BLOCK FUNCTION ORGANIZATION_BLOCK DATA_BLOCK TYPE
END_FUNCTION_BLOCK END_FUNCTION END_ORGANIZATION_BLOCK END_DATA_BLOCK END_TYPE VOID BEGIN NETWORK CALL UC VAR VAR_INPUT
VAR_OUTPUT VAR_IN_OUT VAR_TEMP CONST END_VAR END_CONST ARRAY OF STRUCT END_STRUCT BOOL BYTE WORD DWORD INT DINT TIME
DATE_AND_TIME IF THEN ELSIF ELSE END_IF CASE END_CASE FOR TO BY DO END_FOR WHILE END_WHILE REPEAT UNTIL END_REPEAT EXIT
CONTINUE RETURN ABS MIN MAX LIMIT SEL SHL SHR REAL LREAL S5TIME DATE TIME_OF_DAY TOD DT CHAR STRING POINTER ANY TIMER
COUNTER LABEL GOTO BLOCK_DB BLOCK_FB BLOCK_FC OB FB FC DB UDT""".split())
TYPES = ["BOOL", "BYTE", "WORD", "DWORD", "INT", "DINT"]
NO_NAMES |= {f"{a}_TO_{b}" for a in TYPES for b in TYPES if a != b} | {"DINT_TO_TIME", "TIME_TO_DINT"}
NO_NAMES -= {"BOOL_TO_INT", "BOOL_TO_DINT", "INT_TO_BOOL", "DINT_TO_BOOL", "DINT_TO_BYTE"}
NUMBERED = re.compile(r"((P?[IQ]|M)[BWD]|DB[XBWD]|OB|FB|FC|DB|UDT)[0-9]+", re.I)


def refuse(what, advice):
    """Ends with one line: what is wrong, and what to do."""
    sys.exit(f"certificate.py: {what}: {advice}")


def read(path):
    """The text of a file."""
    try:
        with open(path, encoding="utf-8") as file:
            return file.read()
    except OSError as error:
        refuse(f"{path} can't be read ({error.strerror})", "files are named from the folder in which this tool is called")
    except UnicodeDecodeError:
        refuse(f"{path} is no text", "a proof has to be a text too; cadical writes one with --no-binary")


def blank(text):
    """As many blanks, and the ends of lines."""
    return re.sub(r"[^\n]", " ", text)


def without_dropped(text):
    """The text with blanks for comments, attributes and header lines."""
    out, place, in_head, is_first = [], 0, False, True
    while place < len(text):
        found = PIECE.match(text, place)
        word = (found["word"] or "").upper()
        piece = found[0]
        if in_head and is_first and word in HEADER:
            piece = text[place:].split("\n", 1)[0]
        elif word:
            in_head = word == "FUNCTION_BLOCK" or in_head and word not in HEAD_ENDS
        is_header = piece != found[0] or in_head and is_first and word in HEADER
        out.append(blank(piece) if found["dropped"] or is_header else piece)
        is_first = "\n" in piece or is_first and (bool(found["dropped"]) or piece.isspace())
        place += len(piece)
    return "".join(out)


def words_of(text, name="the text"):
    """The words and signs of a text of the Boolean form."""
    words, place = [], 0
    text = without_dropped(text).rstrip()
    while place < len(text):
        found = WORD.match(text, place)
        if not found:
            place = re.compile(r"\s*").match(text, place).end()
            line = text.count("\n", 0, place) + 1
            refuse(f"{name}, line {line}: no word of the form at '{text[place:place + 12].splitlines()[0]}'", FORM)
        words.append("".join(found[1].split()) if found[1][0] != '"' else found[1])
        place = found.end()
    return words


class Gates:
    """And gates over inputs, folded and shared as plcv's circuits are. Node 1 is true, and -n is node n's complement."""

    def __init__(self, inputs):
        self.nodes = [("true",)] + [("input",)] * inputs
        self.index = {}

    def conjunction(self, a, b):
        if -TRUE in (a, b) or a == -b:
            return -TRUE
        if a == TRUE:
            return b
        if b == TRUE or a == b:
            return a
        gate = (a, b) if abs(a) <= abs(b) else (b, a)
        if gate not in self.index:
            self.nodes.append(gate)
            self.index[gate] = len(self.nodes)
        return self.index[gate]


class Block:
    """One scan of a block of BOOL variables: the literal of each cell after the statements so far."""

    def __init__(self, text, name="the source"):
        self.name = name
        self.words = words_of(text, name)
        if len(self.words) < 3 or self.words[0].upper() != "FUNCTION_BLOCK" or self.words[-1].upper() != "END_FUNCTION_BLOCK":
            refuse(f"{name} isn't one FUNCTION_BLOCK", FORM)
        try:
            names, lines = self.declarations()
        except (IndexError, ValueError):
            refuse(f"{name}: a section or a statement doesn't end", FORM)
        seen = set()
        for key in names:
            if key in seen:
                refuse(f"{name}: '{key}' is declared twice", "a name is declared once, in any letter case")
            seen.add(key)
        self.gates = Gates(len(names))
        self.cells = {key: 2 + place for place, key in enumerate(names)}
        for target, value in lines:
            if target not in self.cells:
                refuse(f"{name}: '{target}' isn't declared", "each name has to be a variable of the block")
            self.cells[target] = self.expression(value, name)

    def declarations(self):
        """The variables' keys in order, and the assignments: a key and the words of an expression."""
        words, names, lines = self.words[2:-1], [], []
        place = 0
        while place < len(words) and words[place].upper() in ("VAR_INPUT", "VAR_OUTPUT", "VAR"):
            place += 1
            while words[place].upper() != "END_VAR":
                stop = words.index(";", place)
                names += self.declared(words[place:stop])
                place = stop + 1
            place += 1
        if place < len(words) and words[place].upper() == "BEGIN":
            place += 1
        while place < len(words):
            stop = words.index(";", place)
            if words[place + 1:place + 2] != [":="]:
                refuse(f"{self.name}: '{words[place]}' begins no assignment", FORM)
            lines.append((words[place].lower(), words[place + 2:stop]))
            place = stop + 1
        return names, lines

    def declared(self, words):
        """The variables' keys of one declaration."""
        names, signs, type_words = [word.lower() for word in words[:-2:2]], words[1:-2:2], words[-2:]
        if len(words) % 2 == 0 or [word.upper() for word in type_words] != [":", "BOOL"] or any(sign != "," for sign in signs):
            refuse(f"{self.name}: '{' '.join(words)}' declares no BOOL variables without start values", FORM)
        for name in names:
            if name.startswith('"'):
                refuse(f"{self.name}: the variable {name} stands in quotes", "only the block's name may")
            if name.upper() in NO_NAMES or NUMBERED.fullmatch(name):
                refuse(f"{self.name}: '{name}' can't be a variable's name, it is a word of the languages or an address", FORM)
        return names

    def expression(self, words, name="the expression"):
        """The literal of an expression: inner ones and left operands first."""
        self.rest, self.where = list(words), name
        value = self.disjunction()
        if self.rest:
            refuse(f"{name}: unread from '{self.rest[0]}'", FORM)
        return value

    def at(self, *signs):
        return bool(self.rest) and self.rest[0].upper() in signs

    def take(self, *signs):
        """The next word, which is one of these where there are some."""
        if not self.rest:
            refuse(f"{self.where}: an expression ends too soon", FORM)
        if signs and not self.at(*signs):
            refuse(f"{self.where}: '{self.rest[0]}' stands where {' or '.join(signs)} is due", FORM)
        return self.rest.pop(0)

    def disjunction(self):
        value = self.conjunction()
        while self.at("OR"):
            self.take()
            value = -self.gates.conjunction(-value, -self.conjunction())
        return value

    def conjunction(self):
        value = self.operand()
        while self.at("AND", "&"):
            self.take()
            value = self.gates.conjunction(value, self.operand())
        return value

    def operand(self):
        word = self.take()
        if word.upper() == "NOT":
            return -self.operand()
        if word == "(":
            value = self.disjunction()
            self.take(")")
            return value
        if word.upper() in ("TRUE", "FALSE"):
            return TRUE if word.upper() == "TRUE" else -TRUE
        if word.lower() not in self.cells:
            refuse(f"{self.where}: '{word}' isn't declared", "each name has to be a variable of the block")
        return self.cells[word.lower()]


def formula(block, fail):
    """The clauses of step(0): node 1, the gates in order, and the scan that fails."""
    clauses = [[TRUE]]
    for number, node in enumerate(block.gates.nodes, 1):
        if len(node) == 2:
            a, b = node
            clauses += [[-number, a], [-number, b], [number, -a, -b]]
    return clauses + [[fail]]


def lemmas_of(path, variables):
    """The clauses that a DRAT text adds."""
    lemmas = []
    for place, line in enumerate(read(path).splitlines(), 1):
        words = line.split()
        if not words or words[0] in ("d", "c"):
            continue
        if not re.fullmatch(r"(-?[1-9][0-9]*\s+)*0", line.strip()):
            refuse(f"{path}, line {place} is no clause", "a proof is a text of clauses, each ended by 0; see --help")
        lemma = [int(word) for word in words[:-1]]
        if any(abs(literal) > variables for literal in lemma):
            refuse(f"{path}, line {place} has a variable above {variables}", "is it the proof of another case's formula?")
        lemmas.append(lemma)
    return lemmas


class Propagation:
    """Unit propagation over a growing list of clauses, whose ids count from 1."""

    def __init__(self, clauses):
        self.clauses, self.where = [], {}
        for clause in clauses:
            self.add(clause)

    def add(self, clause):
        self.clauses.append(clause)
        for literal in clause:
            self.where.setdefault(literal, []).append(len(self.clauses))

    def hints(self, lemma):
        """The ids of clauses that lead from the lemma's literals made false to a false clause, or None."""
        true, trail = {-literal: 0 for literal in lemma}, []
        todo = list(range(1, len(self.clauses) + 1))
        while todo:
            number = todo.pop(0)
            clause = self.clauses[number - 1]
            if any(literal in true for literal in clause):
                continue
            left = [literal for literal in clause if -literal not in true]
            if not left:
                return self.needed(number, true, trail)
            if len(left) == 1:
                true[left[0]] = number
                trail.append(left[0])
                todo += self.where.get(-left[0], [])
        return None

    def needed(self, last, true, trail):
        """Of the clauses that gave a value those that the false one rests on, in their order."""
        wanted, ids = set(self.clauses[last - 1]), [last]
        for literal in reversed(trail):
            if -literal in wanted:
                ids.append(true[literal])
                wanted.update(self.clauses[true[literal] - 1])
        return ids[::-1]


def log(clauses, lemmas):
    """The lines of a log that end with the empty clause: literals and hints, with no line that isn't used."""
    known, steps = Propagation(clauses), []
    for lemma in lemmas + [[]]:
        hints = known.hints(lemma)
        if hints is None and not lemma:
            refuse(
                "the proof isn't enough, the empty clause doesn't follow by unit propagation",
                "ask the parts of a requirement 'A AND B' one by one, or have a solver write the proof (--help); if it says "
                "SATISFIABLE, one scan from some state breaks the invariant, and there is no certificate at k = 0",
            )
        if hints is None:
            refuse(
                f"the clause '{' '.join(map(str, lemma + [0]))}' doesn't follow by unit propagation",
                "is it this case's proof, and was the solver called as --help says (cadical --plain)?",
            )
        steps.append((lemma, hints))
        if not lemma:
            break
        known.add(lemma)
    used = {len(clauses) + len(steps)}
    for place in range(len(steps), 0, -1):
        if len(clauses) + place in used:
            used.update(steps[place - 1][1])
    kept = [place for place in range(1, len(steps) + 1) if len(clauses) + place in used]
    ids = {number: number for number in range(1, len(clauses) + 1)}
    ids.update({len(clauses) + place: len(clauses) + n for n, place in enumerate(kept, 1)})
    return [(ids[len(clauses) + p], steps[p - 1][0], [ids[h] for h in steps[p - 1][1]]) for p in kept]


def case_of(path):
    """The source's file, the block's name and the invariant's text of a case."""
    try:
        case = json.loads(read(path))
        for member in MEMBERS:
            if member not in case:
                refuse(f"{path}: the member '{member}' is missing", FORM)
        for member, value in case.items():
            if member not in MEMBERS and (member not in EMPTY or value != EMPTY[member]):
                refuse(f"{path}: the member '{member}' has to be left out", FORM)
        pattern, [source] = case["pattern"], case["sources"]
        kind, file, text, entry = pattern["kind"], source["file"], pattern["a"], case["entry"]
    except json.JSONDecodeError as error:
        refuse(f"{path}, line {error.lineno} is no JSON ({error.msg})", FORM)
    except (AttributeError, ValueError, KeyError, IndexError, TypeError):
        refuse(f"{path} is no case of one source with a requirement 'a'", FORM)
    if not all(isinstance(value, str) for value in (file, text, entry)):
        refuse(f"{path}: 'file', 'a' or 'entry' is no text", FORM)
    if kind != "invariant":
        refuse(f"{path} has the pattern '{kind}'", "certificates of today are for an invariant")
    if source.get("language") != "scl":
        refuse(f"{path}: {file} isn't in SCL", "certificates of today are for SCL")
    if case["reduce"] != []:
        refuse(f"{path}: 'reduce' isn't empty", "no reduction is built yet, so write \"reduce\": []")
    return file, entry, text


def main():
    words = sys.argv[1:]
    if words in (["--help"], ["-h"]):
        print(__doc__)
        return
    if len(words) not in (1, 2):
        print("certificate.py: one or two words, CASE or CASE PROOF; --help tells how", file=sys.stderr)
        sys.exit(2)
    file, entry, text = case_of(words[0])
    block = Block(read(file), file)
    name = block.words[1].strip('"')
    if [name.lower()] != [word.strip('"').lower() for word in words_of(entry, "the entry")]:
        refuse(f"{words[0]} has the entry '{entry}', {file} the block '{name}'", "the entry is the block's name")
    fail = -block.expression(words_of(text, "the invariant"), "the invariant")
    clauses = formula(block, fail)
    if len(words) == 1:
        print(f"p cnf {len(block.gates.nodes)} {len(clauses)}")
        print("\n".join(" ".join(map(str, clause + [0])) for clause in clauses))
        return
    lines = log(clauses, lemmas_of(words[1], len(block.gates.nodes)))
    print(f"PLCVCERT 1\nverdict satisfied 0\nquery step 0\nchain\nlog {len(lines)}")
    for number, lemma, hints in lines:
        print(" ".join(map(str, [number, *lemma, 0, *hints, 0])))
    print("end")


if __name__ == "__main__":
    try:
        main()
        sys.stdout.flush()
    except BrokenPipeError:
        # Whoever reads has enough.
        os.dup2(os.open(os.devnull, os.O_WRONLY), 1)
