#!/usr/bin/env python3
"""Times the size of a block at n and 2n parts: assignments, the labels of one branch of a CASE, and branches of one.

Usage: run.py [name ..] (all). Builds bench/sizes/main.rt.txt over pv_sizes in a temporary copy, and needs `rt`. Prints the sizes, and the
processor time of taking one, which is that of a run that takes it many times less that of one which only reads the source, over how often;
where `valgrind` is there also the instructions, a part, of taking it once. Ends with status 1 where a size is another than it should be."""
import pathlib
import shutil
import sys
import tempfile

HERE = pathlib.Path(__file__).resolve().parent
sys.path.insert(0, str(HERE.parent))
sys.dont_write_bytecode = True
from build import built  # noqa: E402
from measure import instructions, machine, measured  # noqa: E402

N = 100_000
# So many branches that twice as many are within the limit on edges.
BRANCHES = 33_000
TIMES = 200
# No size is more than one above the limit on edges.
BEYOND = 200_001
HEAD = "FUNCTION_BLOCK f VAR a : DINT; b : DINT; END_VAR "


def assignments(n):
    """n assignments, an edge each."""
    return "a:=b;" * n, n


def labels(n):
    """A CASE of one branch with n labels, which are one test together."""
    return f"CASE a OF {','.join(map(str, range(n)))}: a:=b; END_CASE;", 4


def branches(n):
    """A CASE of n branches, each with a label and an empty list: two edges of a test, and one."""
    return f"CASE a OF {' '.join(f'{k}:;' for k in range(n))} END_CASE;", 1 + 3 * n


CASES = ((assignments, N), (labels, N), (branches, BRANCHES))


class Source:
    """A source of so many parts in a file of the folder, and its size."""

    def __init__(self, place, case, n):
        body, size = case(n)
        self.file = pathlib.Path(place) / f"{case.__name__}{n}.scl"
        self.file.write_text(f"{HEAD}{body}END_FUNCTION_BLOCK\n")
        self.wanted = f"size {min(size, BEYOND)}"

    def seconds(self, program):
        """The time of taking the size once, and what was printed."""
        reading = measured([program, self.file, 0])[0]
        took, _, said = measured([program, self.file, TIMES])
        return max(took - reading, 1e-9) / TIMES, said.strip()


def compare(program, name, sources):
    """Prints what both sources take, and whether both sizes are as they should be."""
    rows = [source.seconds(program) for source in sources]
    for source, (took, said) in zip(sources, rows):
        print(f"{name}, {said}: {1000 * took:.3f} ms", flush=True)
        if said != source.wanted:
            print(f"{name}: {source.wanted} was wanted", flush=True)
    print(f"{name}: {rows[1][0] / rows[0][0]:.2f} times the time", flush=True)
    return all(source.wanted == said for source, (_, said) in zip(sources, rows))


def count(program, name, sources, n):
    """Prints how the instructions of taking the size of n parts and of twice as many grow."""
    few, many = (instructions([program, source.file, 1]) - instructions([program, source.file, 0]) for source in sources)
    print(f"{name}: {few / n:.1f} and {many / (2 * n):.1f} instructions a part, {many / max(few, 1):.2f} times", flush=True)


def main():
    names = sys.argv[1:] or [case.__name__ for case, _ in CASES]
    machine()
    right = True
    with tempfile.TemporaryDirectory() as place:
        program = built(place, "sizes_bench", HERE / "main.rt.txt")
        for case, n in CASES:
            if case.__name__ in names:
                sources = [Source(place, case, parts) for parts in (n, 2 * n)]
                right = compare(program, case.__name__, sources) and right
                if shutil.which("valgrind"):
                    count(program, case.__name__, sources, n)
    sys.exit(not right)


if __name__ == "__main__":
    main()
