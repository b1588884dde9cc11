#!/usr/bin/env python3
"""Times the scans of four blocks of SCL and two of STL beside the same blocks written in C and compiled with gcc -O1, and at twice as many scans.

Usage: run.py [name ..] (all of logic, arithmetic, arrays, calls, stl_logic, stl_arithmetic). Builds bench/scans/main.rt.txt over pv_program in a temporary copy, and
needs `rt` and `gcc`. Prints the assignments a second of both programs and how many times the C program's time the interpreter takes, each
less the time of a run without scans; then time and memory at twice the scans. Ends with status 1 where the two come to different values."""
import pathlib
import random
import subprocess
import sys
import tempfile

HERE = pathlib.Path(__file__).resolve().parent
sys.path.insert(0, str(HERE.parent))
sys.dont_write_bytecode = True
from build import built  # noqa: E402
from measure import compare, machine, measured  # noqa: E402

INPUTS = 8
SIZE = 100
SCANS = 50_000
# The C program gets so many times the scans, so that its time can be told from that of its start.
C_TIMES = 20

INNER = """FUNCTION_BLOCK inner
VAR_INPUT x : INT; y : INT; END_VAR
VAR_OUTPUT q : INT; END_VAR
VAR s : INT; END_VAR
s := s + x; q := s - y;
END_FUNCTION_BLOCK
"""
C_INNER = """
struct inner { value x, y, q, s; };
__attribute__((noinline)) static void call(struct inner *it) { it->s = it->s + it->x; it->q = it->s - it->y; }
"""
C_MAIN = """
int main(int argc, char **argv) {
    long count = atol(argv[1]);
    for (int k = 0; k < INPUTS; k++) { ONE[k] = k % 2 == 0; TWO[k] = k % 2; }
    for (long n = 0; n < count; n++) scan(n % 2 ? TWO : ONE);
    long total = 0;
    for (int k = 0; k < INPUTS && count; k++) total += in[k];
    printf("%ld scans, sum %ld\\n", count, total + sum());
}
"""


class Block:
    """A block as SCL or STL and as C, which assigns so often in a scan. The text `rows` has the parts of both by pairs."""

    def __init__(self, kind, declared, c_declared, rows, c_sum, assignments, below="", c_below="", language="scl"):
        inputs = "".join(f"in{k} : {kind}; " for k in range(INPUTS))
        body = "\n".join(part for part, _ in rows)
        self.language = language
        self.text = f"FUNCTION_BLOCK bench\nVAR_INPUT {inputs}END_VAR\nVAR {declared} END_VAR\nBEGIN\n{body}\nEND_FUNCTION_BLOCK\n{below}"
        c_type = "uint8_t" if kind == "BOOL" else "int16_t"
        scanned = "\n    ".join(c for _, c in rows)
        self.c = (
            f"#include <stdint.h>\n#include <stdio.h>\n#include <stdlib.h>\n#define INPUTS {INPUTS}\ntypedef {c_type} value;\n"
            f"static value in[INPUTS], ONE[INPUTS], TWO[INPUTS];\n{c_below}{c_declared}\n"
            f"__attribute__((noinline)) static void scan(const value *given) {{\n"
            f"    for (int k = 0; k < INPUTS; k++) in[k] = given[k];\n    {scanned}\n}}\n"
            f"static long sum(void) {{ long total = 0; {c_sum} return total; }}\n{C_MAIN}"
        )
        self.assignments = assignments


def variables():
    return [f"v{k}" for k in range(SIZE)], "for (int k = 0; k < SIZE; k++) total += v[k];".replace("SIZE", str(SIZE))


def assigned(kind, seed, language, form, c_form):
    """Assignments of the form, each of which reads the one before, an input and another variable."""
    draw, (names, total) = random.Random(seed), variables()
    rows = []
    for k in range(SIZE):
        part = {"k": k, "last": (k - 1) % SIZE, "i": draw.randrange(INPUTS), "j": draw.randrange(SIZE)}
        rows.append((form.format(**part), c_form.format(**part)))
    declared = "".join(f"{name} : {kind}; " for name in names)
    return Block(kind, declared, f"static value v[{SIZE}];", rows, total, SIZE, language=language)


C_LOGIC = "v[{k}] = (v[{last}] & !in[{i}]) | v[{j}];"
C_ARITHMETIC = "v[{k}] = v[{last}] + in[{i}] * 3 - v[{j}];"


def logic():
    return assigned("BOOL", 1, "scl", "v{k} := v{last} AND NOT in{i} OR v{j};", C_LOGIC)


def arithmetic():
    """A product, a sum and a difference in each assignment."""
    return assigned("INT", 2, "scl", "v{k} := v{last} + in{i} * 3 - v{j};", C_ARITHMETIC)


def stl_logic():
    """Four instructions for each assignment."""
    return assigned("BOOL", 1, "stl", "A #v{last}; AN #in{i}; O #v{j}; = #v{k};", C_LOGIC)


def stl_arithmetic():
    """Eight instructions for each assignment."""
    form = "L #in{i}; L 3; *I; L #v{last}; +I; L #v{j}; -I; T #v{k};"
    return assigned("INT", 2, "stl", form, C_ARITHMETIC)


def arrays():
    """Elements of two arrays by the variable of a loop."""
    end = SIZE - 2
    rows = [
        (
            f"FOR i := 0 TO {end} DO a[i] := b[i + 1] + in0; b[i] := a[i] - b[i] + 1; END_FOR;",
            f"for (i = 0; i <= {end}; i++) {{ a[i] = b[i + 1] + in[0]; b[i] = a[i] - b[i] + 1; }}",
        )
    ]
    declared = f"a : ARRAY [0..{SIZE - 1}] OF INT; b : ARRAY [0..{SIZE - 1}] OF INT; i : INT;"
    total = f"for (int k = 0; k < {SIZE}; k++) total += a[k] + b[k]; total += i;"
    return Block("INT", declared, f"static value a[{SIZE}], b[{SIZE}], i;", rows, total, 2 * (SIZE - 1))


def calls():
    """Calls of instances, each of which assigns twice, and its output taken."""
    count = SIZE // 4
    rows = []
    for k in range(count):
        last = (k - 1) % count
        rows.append(
            (
                f"c{k}(x := in{k % INPUTS}, y := v{last}); v{k} := c{k}.q;",
                f"c[{k}].x = in[{k % INPUTS}]; c[{k}].y = v[{last}]; call(&c[{k}]); v[{k}] = c[{k}].q;",
            )
        )
    declared = "".join(f"v{k} : INT; c{k} : inner; " for k in range(count))
    total = f"for (int k = 0; k < {count}; k++) total += v[k] + c[k].x + c[k].y + c[k].q + c[k].s;"
    c_declared = f"static value v[{count}];\nstatic struct inner c[{count}];"
    return Block("INT", declared, c_declared, rows, total, 3 * count, INNER, C_INNER)


CASES = [logic, arithmetic, arrays, calls, stl_logic, stl_arithmetic]


def compiled(place, name, text):
    """The C program."""
    file = pathlib.Path(place) / f"{name}.c"
    file.write_text(text)
    program = file.with_suffix("")
    subprocess.run(["gcc", "-O1", "-o", program, file], check=True)
    return program


def timed(place, program, case):
    """Prints what the case takes, and whether both programs come to the same."""
    name, block = case.__name__, case()
    file = pathlib.Path(place) / f"{name}.{block.language}"
    file.write_text(block.text)
    plain = compiled(place, name, block.c)
    none, one, two = (measured([program, file, count]) for count in (0, SCANS, 2 * SCANS))
    c_none, c_same, c_many = (measured([plain, count]) for count in (0, SCANS, C_TIMES * SCANS))
    if one[2] != c_same[2]:
        print(f"{name}: {one[2].strip()} beside {c_same[2].strip()}", flush=True)
        return False
    took, c_took = one[0] - none[0], (c_many[0] - c_none[0]) / C_TIMES
    rates = (block.assignments * SCANS / t / 1e6 for t in (took, c_took))
    print("{}: {:.1f} and {:.0f} million assignments a second, {:.1f} times the C program's time".format(name, *rates, took / c_took), flush=True)
    compare(name, (f"{SCANS} scans", one), (f"{2 * SCANS} scans", two))
    return True


def main():
    names = sys.argv[1:] or [case.__name__ for case in CASES]
    machine()
    right = True
    with tempfile.TemporaryDirectory() as place:
        program = built(place, "scans_bench", HERE / "main.rt.txt")
        for case in CASES:
            if case.__name__ in names:
                right = timed(place, program, case) and right
    sys.exit(not right)


if __name__ == "__main__":
    main()
