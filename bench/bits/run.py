#!/usr/bin/env python3
"""Prints the gates a bit of each word operation at 8, 16 and 32 bits, beside the And nodes that abc makes of the same circuit.

Usage: run.py. Runs bench/bits/program.txt with `rt try` (which proves nothing) over pv_gate, pv_word and pv_bits in a temporary copy.
The circuit is written as BLIF from the nodes that the calls made, and `berkeley-abc` (Debian's package berkeley-abc), where it is
there, reads that and says its And nodes after `strash`; an Xor or a Mux is three of them. The program also compares all pairs of BYTE
values, and the ends of INT and DINT, with pv_word, and the lines `table` say how many differ."""
import pathlib
import re
import shutil
import subprocess
import sys
import tempfile

HERE = pathlib.Path(__file__).resolve().parent
sys.path.insert(0, str(HERE.parent))
sys.dont_write_bytecode = True
from build import copied  # noqa: E402


def output(place):
    """What the program prints."""
    crate = copied(place, "bits_bench", HERE / "program.txt")
    run = subprocess.run(["rt", "try", "--steps", "1000", "--seconds", "600"], cwd=crate, capture_output=True, text=True)
    return run.stdout


def literal(number):
    """A literal as a signal and the bit that makes it true."""
    name = "one" if abs(number) == 1 else f"n{abs(number)}"
    return name, "1" if number > 0 else "0"


def gate(words):
    """The table of a node."""
    at, kind, *operands = words
    names, bits = zip(*(literal(int(o)) for o in operands))
    flip = {"0": "1", "1": "0"}
    if kind == "and":
        rows = ["".join(bits)]
    elif kind == "xor":
        rows = [bits[0] + flip[bits[1]], flip[bits[0]] + bits[1]]
    else:
        rows = [bits[0] + bits[1] + "-", flip[bits[0]] + "-" + bits[2]]
    return [f".names {' '.join(names)} n{at}", *(f"{row} 1" for row in rows)]


def ands(nodes, outs, place):
    """The And nodes that abc makes of the circuit, or none without abc."""
    if shutil.which("berkeley-abc") is None:
        return None
    inputs = [f"n{words[0]}" for words in nodes if words[1] == "in"]
    text = [".model word", f".inputs {' '.join(inputs)}", f".outputs {' '.join(f'o{i}' for i in range(len(outs)))}", ".names one", "1"]
    for words in nodes:
        if words[1] != "in":
            text += gate(words)
    for i, out in enumerate(outs):
        name, bit = literal(int(out))
        text += [f".names {name} o{i}", f"{bit} 1"]
    path = place / "word.blif"
    path.write_text("\n".join([*text, ".end"]) + "\n")
    run = subprocess.run(["berkeley-abc", "-c", f"read_blif {path}; strash; print_stats"], capture_output=True, text=True)
    found = re.search(r"and\s*=\s*(\d+)", run.stdout)
    return int(found.group(1)) if found else None


def main():
    with tempfile.TemporaryDirectory() as folder:
        place = pathlib.Path(folder)
        circuits = []
        tables = []
        for line in output(place).splitlines():
            words = line.lstrip("| ").split()
            if words[:1] == ["gates"]:
                circuits.append((words[1], int(words[2]), int(words[3]), [], []))
            elif words[:1] == ["n"]:
                circuits[-1][3].append(words[1:])
            elif words[:1] == ["o"]:
                circuits[-1][4].append(words[1])
            elif words[:1] == ["table"]:
                tables.append(" ".join(words))
        print("| operation | bits | gates | gates a bit | And nodes of abc |")
        print("|---|---|---|---|---|")
        for name, width, count, nodes, outs in circuits:
            other = ands(nodes, outs, place)
            print(f"| {name} | {width} | {count} | {count / width:.1f} | {other if other is not None else 'no abc'} |")
        print("\n".join(tables))


main()
