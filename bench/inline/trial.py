"""What bench/inline/program.txt says of blocks, tried by `rt try`, which runs it without a proof."""
import pathlib
import subprocess
import sys
import tempfile

HERE = pathlib.Path(__file__).resolve().parent
sys.path.insert(0, str(HERE.parent))
from build import copied  # noqa: E402


def tried(text):
    """The program's lines."""
    with tempfile.TemporaryDirectory() as place:
        crate = copied(place, "inline_trial", HERE / "program.txt")
        (pathlib.Path(place) / ".git").mkdir()
        words = ["rt", "try", "--steps", "2000000000", "--seconds", "900"]
        said = subprocess.run(words, cwd=crate, input=text, capture_output=True, text=True)
    lines = [line for line in said.stdout.splitlines() if "|" in line or "large" in line or "no automaton" in line]
    assert lines, said.stdout[-2000:] + said.stderr[-2000:]
    return lines
