#!/usr/bin/env python3
"""Times the rules of the language on sources of n and 2n parts: variables each of which is assigned, assignments, blocks with four
calls each, a chain of named types whose last one contains itself, fields of a type with as many fields, once behind a type that
contains itself, calls of a block with as many variables, values of a data block's parts, calls that hand a function without a value out,
assignments of 60 levels, and ordinary statements.

Usage: run.py [name ..] (all). Builds bench/rules/main.rt.txt over pv_rules in a temporary copy, and needs `rt`. Prints the answer, the
processor time and the peak memory of both runs and their ratios; then the times of the check alone, which are those of whole runs less
that of a run which only reads the source. Where `valgrind` is there also the instructions of the check alone, a part, and their ratio,
which no load changes; for some at n/16 and n/8. Last, how reading and checking compare with the cut into tokens alone. Ends with
status 1 where an answer is another than it should be."""
import pathlib
import shutil
import subprocess
import sys
import tempfile

HERE = pathlib.Path(__file__).resolve().parent
sys.path.insert(0, str(HERE.parent))
sys.dont_write_bytecode = True
from build import built  # noqa: E402
from measure import compare, machine, measured  # noqa: E402

RUNS = 10
LAYERS = 8
KEPT = "rule 0 at 0"


def variables(n):
    """A block of n variables, each assigned the one before."""
    declared = "".join(f"v{k} : INT;\n" for k in range(n))
    assigned = "".join(f"v{k} := v{k - 1};\n" for k in range(1, n))
    return f"FUNCTION_BLOCK f VAR\n{declared}END_VAR\n{assigned}END_FUNCTION_BLOCK\n", KEPT


def assignments(n):
    """A block of n assignments."""
    return "FUNCTION_BLOCK f VAR a : INT; b : INT; END_VAR " + "a:=b;" * n + "END_FUNCTION_BLOCK", KEPT


def blocks(n):
    """Functions in layers of n/8, as many as a chain of calls may have, each of which calls four of the layer after its own."""
    wide = n // LAYERS
    text = []
    for k in range(n):
        layer, at = divmod(k, wide)
        calls = [f"g{(layer + 1) * wide + (at * 7 + turn * 31) % wide}();" for turn in range(4)] if layer + 1 < LAYERS else []
        text.append(f"FUNCTION g{k} : VOID {''.join(calls)} END_FUNCTION\n")
    return "".join(text), KEPT


def types(n):
    """Types each of which names the next, and the last itself. The name of the last one breaks a rule, first in the one before."""
    text = "".join(f"TYPE t{k} STRUCT a : t{k + 1}; END_STRUCT END_TYPE\n" for k in range(n - 1))
    last = f"t{n - 1}"
    return text + f"TYPE {last} STRUCT a : {last}; END_STRUCT END_TYPE\n", f"rule 3 at {text.index(f'{last};')}"


def named(n):
    """A type with n fields of a type, and one with n fields of that."""
    many = [("t", "u", "f"), ("s", "t", "g")]
    text = "".join(f"TYPE {name} STRUCT {''.join(f'{word}{k} : {of}; ' for k in range(n))}END_STRUCT END_TYPE\n" for name, of, word in many)
    return f"TYPE u STRUCT x : INT; END_STRUCT END_TYPE\n{text}", KEPT


def behind(n):
    """A type with n fields of a type with n fields; between the two stands one that contains itself."""
    first, then = (f"TYPE {a} STRUCT {''.join(f'f{k} : {b}; ' for k in range(n))}END_STRUCT END_TYPE\n" for a, b in ("st", "tu"))
    last = "TYPE u STRUCT x : INT; END_STRUCT END_TYPE\n"
    return f"{first}TYPE e STRUCT a : e; END_STRUCT END_TYPE\n{then}{last}", f"rule 3 at {len(first) + len('TYPE e STRUCT a : ')}"


def called(n):
    """A function block of n variables, which is called n times."""
    declared = "".join(f"v{k} : INT;\n" for k in range(n))
    calls = "i();\n" * n
    return f"FUNCTION_BLOCK g VAR\n{declared}END_VAR END_FUNCTION_BLOCK\nFUNCTION_BLOCK f VAR i : g; END_VAR\n{calls}END_FUNCTION_BLOCK\n", KEPT


def values(n):
    """A data block that gives n parts their values."""
    declared = "".join(f"v{k} : INT;\n" for k in range(n))
    given = "".join(f"v{k} := {k % 100};\n" for k in range(n))
    return f"DATA_BLOCK d STRUCT\n{declared}END_STRUCT\nBEGIN\n{given}END_DATA_BLOCK\n", KEPT


def shared(n):
    """Types of 22 levels, each of two words that share the structure beneath."""
    deep = "a, b : STRUCT " * 22 + "x : BOOL;" + "END_STRUCT;" * 22
    return "".join(f"TYPE t{k} STRUCT {deep} END_STRUCT END_TYPE\n" for k in range(n)), KEPT


def outputs(n):
    """Calls each of which hands the name of a function without a value to an output, as which nothing but a variable may stand."""
    text = "FUNCTION h : VOID END_FUNCTION FUNCTION g : VOID VAR_OUTPUT o : INT; END_VAR END_FUNCTION FUNCTION f : VOID "
    return text + "g(o:=h);" * n + "END_FUNCTION", f"rule 18 at {len(text) + len('g(o:=')}"


def levels(n):
    """Assignments of 60 operands each, of which each operator has all before it beneath."""
    value = " OR ".join(["a"] * 60)
    return f"FUNCTION_BLOCK f VAR a : BOOL; b : BOOL; END_VAR {f'b := {value};' * n} END_FUNCTION_BLOCK", KEPT


def ordinary(n):
    """A block of n times three statements, as bench/parse has them."""
    flags, numbers = "ready, fault, motor, valve, pumps : BOOL;", "speed, power, level, count : INT; gains : ARRAY[1..10] OF INT;"
    code = "IF ready AND NOT fault THEN\n  motor := valve OR #pumps;\nEND_IF;\nspeed := power * (level + 15) - gains[count];\n"
    return f"FUNCTION_BLOCK f VAR {flags} {numbers} END_VAR BEGIN {code * n}END_FUNCTION_BLOCK", KEPT


# How many parts n is, and how many less where instructions are counted, which takes some fifty times as long.
CASES = {
    variables: (10_000, 1), assignments: (419_000, 16), blocks: (1_000, 1), types: (2_500, 1), named: (10_000, 1),
    behind: (10_000, 1), called: (10_000, 1), values: (20_000, 4), shared: (1_000, 16), outputs: (10_000, 1),
    levels: (6_900, 16), ordinary: (19_000, 16),
}


class Source:
    """A source of so many parts in a file of the folder, with the lines that its check has to print."""

    def __init__(self, place, case, n):
        text, self.wanted = case(n)
        self.file = pathlib.Path(place) / f"{case.__name__}{n}.scl"
        self.file.write_text(text)

    def measured(self, program, mode):
        return measured([program, self.file, mode], runs=RUNS)

    def instructions(self, program, mode):
        """The instructions of a run."""
        counting = ["valgrind", "--tool=callgrind", "--callgrind-out-file=/dev/null", program, str(self.file), mode]
        said = subprocess.run(counting, capture_output=True, text=True, check=True).stderr
        return int(said.split("Collected : ")[1].split()[0])


def compare_instructions(place, program, case, n):
    """Prints how the instructions of the check alone grow."""
    sources = [Source(place, case, parts) for parts in (n, 2 * n)]
    few, many = (source.instructions(program, "check") - source.instructions(program, "read") for source in sources)
    print(f"{case.__name__}: {few / n:.0f} and {many / (2 * n):.0f} instructions a part, {many / few:.2f} times", flush=True)


def beside_tokens(place, program, case, n):
    """Prints how reading and checking compare with the cut into tokens alone."""
    source = Source(place, case, n)
    cut, whole = source.measured(program, "tokens")[0], source.measured(program, "check")[0]
    read = source.measured(program, "read")[0]
    print(f"{case.__name__}: {whole / cut:.2f} times the time of the tokens, {read / cut:.2f} times without the rules", flush=True)


def timed(place, program, case, n):
    """Prints what the case takes at n and 2n parts, and whether both are answered as they should be."""
    name = case.__name__
    one, two = (Source(place, case, parts) for parts in (n, 2 * n))
    rows = [source.measured(program, "check") for source in (one, two)]
    compare(name, *((row[2].strip().replace("\n", ", "), row) for row in rows))
    alone, alone_two = (max(row[0] - source.measured(program, "read")[0], 0.001) for source, row in zip((one, two), rows))
    print(f"{name}: the check alone {alone:.3f} s and {alone_two:.3f} s, {alone_two / alone:.2f} times", flush=True)
    for source, row in zip((one, two), rows):
        if source.wanted not in row[2]:
            print(f"{name}: {source.wanted} was wanted", flush=True)
            return False
    return True


def main():
    names = sys.argv[1:] or [case.__name__ for case in CASES]
    machine()
    right = True
    with tempfile.TemporaryDirectory() as place:
        program = built(place, "rules_bench", HERE / "main.rt.txt")
        for case, (n, less) in CASES.items():
            if case.__name__ in names:
                right = timed(place, program, case, n) and right
                beside_tokens(place, program, case, 2 * n)
                if shutil.which("valgrind"):
                    compare_instructions(place, program, case, n // less)
    sys.exit(not right)


if __name__ == "__main__":
    main()
