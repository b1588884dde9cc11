#!/usr/bin/env python3
"""Compares the reader of SCL with plain productions on random texts, by what it answers and where.

Usage: agree.py [seed [count]] (1, 1,000). Builds bench/parse/main.rt.txt over both readers in a temporary copy, and needs `rt`. A half
of the texts are sentences of the productions (productions.py), of which three in four are then changed: the reader has to read them, or
to tell the first token with which no text goes on. The other half nest around 64 levels (nested.py). Prints each text that is answered
otherwise, and how many there are of each answer."""
import collections
import pathlib
import random
import subprocess
import sys
import tempfile

HERE = pathlib.Path(__file__).resolve().parent
sys.path[:0] = [str(HERE), str(HERE.parent)]
sys.dont_write_bytecode = True
from build import built  # noqa: E402
from nested import DEPTHS, Nested  # noqa: E402
from productions import fault, mutated, sentence  # noqa: E402


def flat(rng, mode):
    """A text of the productions or one near them, with the number of the token at fault."""
    tokens = sentence(rng, mode, rng.choice([8, 15, 25, 40, 60]))
    if rng.random() < 0.75:
        tokens = mutated(rng, tokens)
    return tokens, "Syntax", fault(tokens, mode)


def deep(rng, mode):
    """A text that nests, with the number of the first token of the part that nests too deep."""
    made = Nested(rng)
    if mode == "source":
        made.source()
    else:
        made.expression(0, rng.choice(DEPTHS))
    return made.tokens, "Deep", made.first_too_deep()


def answer(program, mode, text):
    run = subprocess.run([program, "scl", mode, "", text, "1", "", "", ""], capture_output=True, text=True)
    return run.stdout.strip().split(", ")[-1] or run.stderr


def main():
    rng = random.Random(int(sys.argv[1]) if len(sys.argv) > 1 else 1)
    count = int(sys.argv[2]) if len(sys.argv) > 2 else 1000
    answers, wrong = collections.Counter(), 0
    with tempfile.TemporaryDirectory() as place:
        program = built(place, "parse_bench", HERE / "main.rt.txt")
        for _ in range(count):
            mode = rng.choice(["source", "source", "expression"])
            tokens, word, at = rng.choice([flat, deep])(rng, mode)
            text = " ".join(tokens)
            wanted = "reads 0" if at is None else f"{word} {len(' '.join([*tokens[:at], '']))if at < len(tokens) else len(text)}"
            said = answer(program, mode, text)
            answers[mode, wanted.split()[0]] += 1
            if said != wanted:
                wrong += 1
                print(f"{mode} {text!r}: {said}, wanted {wanted}", flush=True)
    for (mode, word), often in sorted(answers.items()):
        print(f"{mode}, {word}: {often}")
    print(f"{wrong} answered otherwise")
    sys.exit(wrong > 0)


main()
