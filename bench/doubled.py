"""Compares the runs of a program over the repository's libraries at n and 2n."""
import tempfile

from build import built
from measure import compare, machine, measured


def doubled(name, text, n, cases, words):
    """Builds the program in a temporary copy and compares its runs for each case; `words` gives a run's words by case and count."""
    machine()
    with tempfile.TemporaryDirectory() as place:
        program = built(place, name, text)
        for case in cases:
            rows = [measured([program, *words(case, count)]) for count in (n, 2 * n)]
            compare(case, *((row[2].strip(), row) for row in rows))
