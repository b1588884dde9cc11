#!/usr/bin/env python3
"""Times the cut of a text into tokens: hostile texts at n and 2n bytes, and a program beside a scanner of flex in C.

Usage: run.py [n] (2,097,152, the half of what a source may have). Builds the programs in a temporary copy of the crates, and needs
`rt`, and for the comparison `flex` and a C compiler. Prints, for each text, the processor time of one cut (that of many less that of
none, the least of five), the ratio of these, the least and the greatest ratio of five pairs, and the memory of a token (the peak less
that of a run which cuts nothing). Where `valgrind` is there also the ratio of instructions at n/16 and n/8, which no load changes.

Each cut takes its memory anew from the system, as a process that cuts one text does. Left to itself the C library would hand a list
below 32 MiB the memory of the cut before, and one above it new pages each time, and so a text just beyond that would look slower."""
import os
import pathlib
import shutil
import subprocess
import sys
import tempfile

HERE = pathlib.Path(__file__).resolve().parent
sys.path.insert(0, str(HERE.parent))
sys.dont_write_bytecode = True
from build import built  # noqa: E402
from measure import machine, measured  # noqa: E402

# What is repeated: `^` stands for a line feed.
HOSTILE = {
    "comments left open": "(* ",
    "quotes left open": '"',
    "quotes on lines": '"a"^',
    "points": "1.1.1.",
    "bases": "16#16#",
    "braces": "{",
    "header lines": "TYPE a^NAME b^",
    "durations": "T#1d1h1m1s1ms",
    "parts out of order": "T#1s1m1h1d",
    "digits": "1",
    "digits and `_`": "1_",
    "addresses without digits": "I   ",
    "addresses": "MB1 ",
    "bytes over 127 in quotes": '"é"',
    "bytes over 127": "é",
    "stars": "(**) ",
    "words": "a",
    "short words": "a ",
    "signs": "<=>:==",
}

PROGRAM = """FUNCTION_BLOCK "Conveyor"^TITLE = Conveyor with two motors^VERSION : '0.1'^VAR_INPUT^  start : BOOL := FALSE; // by hand^
  speed : INT := 1_500; limit : DINT := DINT#40000;^END_VAR^VAR^  timer : TIME := T#1s500ms; mask : WORD := W#16#00FF;^END_VAR^BEGIN^
(* run while started *)^IF start AND NOT #stop OR (speed >= 100) THEN^  run := %I0.1 & (counts[i + 1] <> 16#FF);^ELSE^
  total := total + INT_TO_DINT(speed) * 2;^END_IF;^FOR i := 0 TO 10 BY 1 DO^  sums[i] := MAX(IN1 := a.b, IN2 := c) MOD 7;^END_FOR;^
END_FUNCTION_BLOCK^""".replace("\n", "")


RUNS = 5


class Timed:
    """A command that cuts a text as often as its last word says: the milliseconds of processor time of one cut in each run, what was
    found, and the bytes of memory that it took."""

    def __init__(self, command):
        self.command = command
        micros = min(int(measured([*command, 1], runs=1)[2].rsplit(" ", 1)[1]) for _ in range(3))
        self.rounds = max(5, 400000 // max(micros, 1000))
        self.idle = measured([*command, 0], runs=5)
        self.took, self.memory = [], None

    def run(self):
        seconds, peak, said = measured([*self.command, self.rounds], runs=1)
        self.took.append(max(1000 * (seconds - self.idle[0]) / self.rounds, 0.001))
        memory = (peak - self.idle[1]) * 2**20
        self.memory = memory if self.memory is None else min(memory, self.memory)
        self.found = said.rsplit(",", 1)[0]


def by_turns(one, two):
    """Runs two by turns, so that both have the machine's load, and gives the least and the greatest ratio of the pairs."""
    for _ in range(RUNS):
        one.run()
        two.run()
    ratios = sorted(b / a for a, b in zip(one.took, two.took))
    return ratios[0], ratios[-1]


def instructions(command):
    """The instructions of one cut: those of a run that cuts once less those of one that doesn't."""
    counts = []
    for rounds in (0, 1):
        counting = ["valgrind", "--tool=callgrind", "--callgrind-out-file=/dev/null", *map(str, command), str(rounds)]
        said = subprocess.run(counting, capture_output=True, text=True, check=True).stderr
        counts.append(int(said.split("Collected : ")[1].split()[0]))
    return counts[1] - counts[0]


def token_bytes(timed):
    """The bytes of memory a token, where there are many."""
    count = int(timed.found.split()[0])
    return f", {timed.memory / count:.1f} bytes a token" if count > 100000 else ""


def grown(program, name, pattern, n):
    """Prints the times at n and 2n bytes, in whole patterns."""
    def commands(size):
        length = len(pattern.encode())
        return ([program, pattern, most // length * length] for most in (size, 2 * size))

    one, two = map(Timed, commands(n))
    least, most = by_turns(one, two)
    ratio = f"{min(two.took) / min(one.took):.2f} times the time ({least:.2f} to {most:.2f})"
    if min(one.took) < 0.1:
        ratio = "too short for a ratio"
    elif shutil.which("valgrind"):
        few, many = map(instructions, commands(n // 16))
        ratio += f", {many / few:.2f} times the instructions"
    print(f"{name}: {min(one.took):.2f} ms, {one.found}; {min(two.took):.2f} ms, {two.found}{token_bytes(two)}: {ratio}", flush=True)


def compare_with_c(program, place, size):
    """The ratio of times on a program of this size, and whether both found as many tokens."""
    size = size // len(PROGRAM) * len(PROGRAM)
    text = PROGRAM.replace("^", "\n") * (size // len(PROGRAM))
    # The plain scanner knows no header lines, so theirs are blank in its text.
    for line in ("TITLE = Conveyor with two motors", "VERSION : '0.1'"):
        text = text.replace(line, " " * len(line))
    (place / "text").write_text(text)
    subprocess.run(["flex", "-o", place / "plain.c", HERE / "plain.l"], check=True)
    subprocess.run(["cc", "-O2", "-o", place / "plain", place / "plain.c"], check=True)
    plain, ours = Timed([place / "plain", place / "text"]), Timed([program, PROGRAM, size])
    least, most = by_turns(plain, ours)
    for name, timed in (("plcv", ours), ("flex", plain)):
        print(f"a program of {size} bytes, {name}: {min(timed.took):.1f} ms, {timed.found}{token_bytes(timed)}")
    print(f"a program of {size} bytes: plcv takes {min(ours.took) / min(plain.took):.2f} times as long as flex "
          f"({least:.2f} to {most:.2f})", flush=True)


def main():
    n = int(sys.argv[1]) if len(sys.argv) > 1 else 2097152
    machine()
    os.environ["MALLOC_MMAP_THRESHOLD_"] = "65536"
    with tempfile.TemporaryDirectory() as folder:
        place = pathlib.Path(folder)
        program = built(place, "lex_bench", HERE / "main.rt.txt")
        for name, pattern in HOSTILE.items():
            grown(program, name, pattern, n)
        if shutil.which("flex"):
            compare_with_c(program, place, 2 * n)


main()
