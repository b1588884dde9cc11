#!/usr/bin/env python3
"""Times the reading of sources and expressions of n and 2n bytes, ordinary and hostile ones, and tells the memory that they take.

Usage: run.py [n [name ..]] (2,097,152, the half of what a source may have, and all texts). Builds bench/parse/main.rt.txt over
pv_scl_parse and pv_stl_parse in a temporary copy, and needs `rt`. Prints, for each text, the answer, the processor time and the peak memory of both
runs and their ratios; then, at 2n, the bytes of memory a byte of the text, and how the reading compares with the cut into tokens
alone: both times are those of whole runs less that of a run which only makes the text. Where `valgrind` is there also the ratio of
instructions at n/64 and n/32 and that to the instructions of the tokens, which no load changes. Ends with status 1 where an answer
begins otherwise than it should."""
import pathlib
import shutil
import subprocess
import sys
import tempfile

HERE = pathlib.Path(__file__).resolve().parent
sys.path.insert(0, str(HERE.parent))
sys.dont_write_bytecode = True
from build import built  # noqa: E402
from measure import compare, machine, measured  # noqa: E402

HEAD, FOOT = "FUNCTION f : VOID BEGIN ", "END_FUNCTION"
ORDINARY = "IF ready AND NOT fault THEN\n  motor := valve OR #pumps;\nEND_IF;\nspeed := power * (level + 15) - gains[count];\n"
CODE = "FUNCTION f : VOID BEGIN NETWORK "
SHARED = "TYPE t STRUCT " + "a,b:STRUCT " * 22 + "x:BOOL;" + "END_STRUCT;" * 22 + "END_STRUCT END_TYPE\n"

# What is read (a source of a language, or an expression), what stands at the begin, what is repeated, what stands in the middle, what is
# repeated after it, what stands at the end, and how the answer begins.
TEXTS = {
    "ordinary statements": ("scl", HEAD, ORDINARY, "", "", FOOT, "reads"),
    "assignments with names of five letters": ("scl", HEAD, "speed := level;\n", "", "", FOOT, "reads"),
    "dense assignments": ("scl", HEAD, "a:=b;", "", "", FOOT, "reads"),
    "empty statements": ("scl", HEAD, ";", "", "", FOOT, "reads"),
    "calls": ("scl", HEAD, "f(a:=b);", "", "", FOOT, "reads"),
    "IF, 60 levels": ("scl", HEAD, "IF a THEN " * 60 + ";" + "END_IF;" * 60, "", "", FOOT, "reads"),
    "branches of a CASE": ("scl", HEAD + "CASE a OF ", "100: speed := 1000;\n", "", "", "END_CASE;" + FOOT, "reads"),
    "dense branches of a CASE": ("scl", HEAD + "CASE a OF 1:", "2:", "", "", "END_CASE;" + FOOT, "reads"),
    "values of a branch": ("scl", HEAD + "CASE a OF 1", ",2", "", "", ":END_CASE;" + FOOT, "reads"),
    "arguments of a call": ("scl", HEAD + "f(a:=1", ",b:=1", "", "", ");" + FOOT, "reads"),
    "variables": ("scl", "FUNCTION_BLOCK f VAR ", "speed : INT;\n", "", "", "END_VAR END_FUNCTION_BLOCK", "reads"),
    "dense variables": ("scl", "FUNCTION_BLOCK f VAR a", ",b", "", "", ":INT;END_VAR END_FUNCTION_BLOCK", "reads"),
    "blocks": ("scl", "", "TYPE t STRUCT END_STRUCT END_TYPE\n", "", "", "", "reads"),
    "structures of 22 levels that two words share": ("scl", "", SHARED, "", "", "", "reads"),
    "values of a data block": ("scl", "DATA_BLOCK d f BEGIN ", "a:=1;", "", "", "END_DATA_BLOCK", "reads"),
    "structures": ("scl", "TYPE t STRUCT a:", "STRUCT a:", "INT;", "END_STRUCT;", "END_STRUCT END_TYPE", "Deep"),
    "IF": ("scl", HEAD, "IF a THEN ", ";", "END_IF;", FOOT, "Deep"),
    "IF without an end": ("scl", HEAD, "IF a THEN ", "", "", FOOT, "Syntax"),
    "operands of a statement": ("scl", HEAD + "x:=", "a+", "a", "", ";" + FOOT, "Deep"),
    "words that share a structure": ("scl", "TYPE t STRUCT a,b:", "STRUCT a,b:", "INT;", "END_STRUCT;", "END_STRUCT END_TYPE", "Deep"),
    "parentheses without an end": ("expression", "", "(", "a", "", "", "Syntax"),
    "parentheses": ("expression", "", "(", "a", ")", "", "Deep"),
    "operands of a sum": ("expression", "", "a+", "a", "", "", "Deep"),
    "operands of OR": ("expression", "", "a OR ", "a", "", "", "Deep"),
    "sums in parentheses": ("expression", "", "a+(", "a", ")", "", "Deep"),
    "NOT": ("expression", "", "NOT ", "a", "", "", "Deep"),
    "fields": ("expression", "", "a.", "a", "", "", "reads"),
    "fields without an end": ("expression", "", "a.a.a.", "", "", "", "Syntax"),
    "indexes without an end": ("expression", "", "x[", "1", "", "", "Syntax"),
    "indexes": ("expression", "", "x[", "1", "]", "", "Deep"),
    "arguments of functions": ("expression", "", "ABS(", "1", ")", "", "Deep"),
    "instructions": ("stl", CODE, "A ready;\nAN fault;\n= motor;\nL speed;\nT level;\n", "", "", FOOT, "reads"),
    "dense instructions": ("stl", CODE, "A a;", "", "", FOOT, "reads"),
    "labels": ("stl", CODE, "m:SET;", "", "", FOOT, "reads"),
    "openings": ("stl", CODE, "A(;", "", "", FOOT, "reads"),
    "NETWORK": ("stl", CODE, "NETWORK ", "", "", FOOT, "reads"),
    "arguments of a CALL": ("stl", CODE + "CALL f(a:=1", ",b:=1", "", "", ");" + FOOT, "reads"),
}


RUNS = 3


def mode_of(text):
    """What the whole of a text is read as."""
    return "expression" if text[0] == "expression" else "source"


def words(mode, text, size):
    """The words of a run on a text of at most so many bytes."""
    what, begin, front, middle, back, end, _ = text
    count = (size - len(begin + middle + end)) // len(front + back)
    return ["stl" if what == "stl" else "scl", mode, begin, front, count, middle, back, end]


def instructions(program, mode, text, size):
    """The instructions of a run."""
    counting = ["valgrind", "--tool=callgrind", "--callgrind-out-file=/dev/null", program, *map(str, words(mode, text, size))]
    said = subprocess.run(counting, capture_output=True, text=True, check=True).stderr
    return int(said.split("Collected : ")[1].split()[0])


def compare_instructions(program, name, text, n):
    """Prints how the instructions grow, and how the reading without the tokens compares with the tokens."""
    few, many = ([instructions(program, mode, text, size) for mode in ("text", "tokens", mode_of(text))] for size in (n // 64, n // 32))
    growth = (many[2] - many[0]) / (few[2] - few[0])
    beside = (many[2] - many[1]) / (many[1] - many[0])
    print(f"{name}: {growth:.2f} times the instructions, without the tokens {beside:.2f} times those of the tokens", flush=True)


def main():
    n = int(sys.argv[1]) if len(sys.argv) > 1 else 2097152
    names = sys.argv[2:] or TEXTS
    machine()
    wrong = False
    with tempfile.TemporaryDirectory() as place:
        program = built(place, "parse_bench", HERE / "main.rt.txt")
        for name in names:
            text = TEXTS[name]
            one, two = (measured([program, *words(mode_of(text), text, size)], runs=RUNS) for size in (n, 2 * n))
            compare(name, *((row[2].strip(), row) for row in (one, two)))
            made, cut = (measured([program, *words(mode, text, 2 * n)], runs=RUNS) for mode in ("text", "tokens"))
            size, tokens, answer = two[2].strip().split(", ")
            cutting = max(cut[0] - made[0], 0.001)
            print(f"{name}: {two[1] * 2**20 / int(size.split()[0]):.1f} bytes of memory a byte of the text; with the tokens "
                  f"{(two[0] - made[0]) / cutting:.2f} times the time of the tokens, without them {(two[0] - cut[0]) / cutting:.2f} times; "
                  f"{int(size.split()[0]) / int(tokens.split()[0]):.1f} bytes a token", flush=True)
            if shutil.which("valgrind"):
                compare_instructions(program, name, text, n)
            if not answer.startswith(text[-1]):
                print(f"{name}: {text[-1]} was wanted", flush=True)
                wrong = True
    sys.exit(wrong)


main()
