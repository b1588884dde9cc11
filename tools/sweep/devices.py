#!/usr/bin/env python3
"""Fails each call of the system by which the proved program reads or writes, one in a run, over commands of every status and verdict.

Usage: devices.py [PROGRAM]. Each call of open, read and write fails in turn, with each of its errors, where reads and writes go by 64
bytes; the standard output and the file of a certificate have room for each number of bytes that is too few; a file isn't there, or is a
folder; and no call fails, but reads and writes go by one byte, or files can't be closed. After each of these the status, what is printed
and what the certificate's file holds have to be exactly what docs/FORMATS.md says, no file may be read behind one that couldn't be, and
nothing may be written behind a write that failed. Needs gcc and Linux. It isn't part of the gate. Prints a line for each command, and ends
with status 1 where a run ended otherwise."""
import collections
import concurrent.futures
import errno
import json
import os
import pathlib
import shutil
import subprocess
import sys
import tempfile

HERE = pathlib.Path(__file__).resolve().parent
ROOT = HERE.parent.parent
PIECE = 64
# What the file of a certificate holds before a check.
BEFORE = b"what was there before\n"
ERRORS = {
    "open": (errno.ENOENT, errno.EACCES, errno.EIO, errno.ENOMEM),
    "create": (errno.ENOENT, errno.EACCES, errno.ENOSPC, errno.ENOMEM),
    "read": (errno.EIO, errno.EINTR, errno.ENOMEM),
    # (0: it takes nothing)
    "write": (errno.EIO, errno.ENOSPC, errno.EINTR, errno.EPIPE, errno.ENOMEM, 0),
    "close": (errno.EIO,),
}

SHIFT = """FUNCTION_BLOCK Shift
VAR_INPUT x : BOOL; END_VAR
VAR a : BOOL; b : BOOL; c : BOOL; END_VAR
BEGIN
c := b; b := a; a := x;
END_FUNCTION_BLOCK
"""


def parity(words):
    """Whether the two orders in which a sum of bits is made come to the same, which takes a solver some lemmas."""
    lines = []
    for target, order in (("p", words), ("q", words[::-1])):
        lines.append(f"{target} := {order[0]};")
        lines += [f"{target} := ({target} AND NOT {word}) OR (NOT {target} AND {word});" for word in order[1:]]
    body = "\n".join(lines)
    return f"""FUNCTION_BLOCK Parity
VAR_INPUT {", ".join(words)} : BOOL; END_VAR
VAR p : BOOL; q : BOOL; END_VAR
BEGIN
{body}
END_FUNCTION_BLOCK
"""


SOURCES = {"shift.scl": SHIFT, "parity.scl": parity([f"x{bit}" for bit in range(8)])}

# The cases that a check decides: the example that each begins with, what it has instead, the status, and a line of the report.
CASES = {
    "satisfied": ("conveyor", {}, 0, "verdict satisfied"),
    "violated": ("latch", {}, 1, "verdict violated"),
    "reached": ("latch", {"pattern": {"kind": "reach", "a": "run"}}, 0, "verdict reached"),
    "unreachable": ("latch", {"pattern": {"kind": "reach", "a": "run AND stop"}}, 1, "verdict unreachable"),
    "depth": ("latch", {"sources": ["shift.scl"], "entry": "Shift", "pattern": {"kind": "invariant", "a": "NOT c"}, "depth": 2},
              2, "limit depth 2"),
    "lemmas": ("latch", {"sources": ["parity.scl"], "entry": "Parity",
                         "pattern": {"kind": "invariant", "a": "p AND q OR NOT p AND NOT q"}, "lemmas": 1}, 2, "limit lemmas 1"),
    "region": ("conveyor", {"regionWords": 16}, 2, "limit region 16"),
}

# Other commands: the words, the status, and a line of what is printed.
COMMANDS = [
    ("check examples/tank/case.json", 3, "plcv: form examples/tank/tank.scl"),
    ("check examples/motor/case.json", 4, "plcv: form examples/motor/case.json"),
    ("check examples/latch/latch.scl", 4, "plcv: case: NotJson"),
    ("check", 5, "plcv: words"),
    ("recheck examples/conveyor/case.json examples/conveyor/certificate.txt", 0, "verdict satisfied"),
    ("recheck examples/conveyor/case.json examples/conveyor/trace.txt", 8, "plcv: certificate: line 1 NotACertificate"),
    ("replay examples/latch/case.json examples/latch/trace.txt", 0, "replay kept"),
    ("replay examples/starter/blocked.json examples/starter/broken.txt", 1, "replay broken"),
    ("replay examples/tank/case.json examples/tank/trap.txt", 1, "cause trap DivideByZero examples/tank/tank.scl:80:28"),
    ("replay examples/silo/short.json examples/silo/trace.txt", 2, "replay over"),
    ("replay examples/motor/starts.json examples/motor/trace.txt", 0, "replay reached"),
    ("replay examples/motor/starts.json examples/motor/broken.txt", 1, "replay not reached"),
    ("replay examples/latch/case.json examples/latch/latch.scl", 8, "plcv: trace: line 1"),
    ("show examples/latch/case.json examples/latch/trace.txt", 0, "replay kept"),
    ("show examples/starter/blocked.json examples/starter/broken.txt", 1, "replay broken"),
    ("show examples/tank/case.json examples/tank/trap.txt", 1, "cause trap DivideByZero examples/tank/tank.scl:80:28"),
    ("show examples/silo/short.json examples/silo/trace.txt", 2, "replay over"),
]

# How a run ended: its status, what it printed, and what the certificate's file holds then.
End = collections.namedtuple("End", "status text file")
# A call of the system: what it does, and the name of the file that it is on.
Call = collections.namedtuple("Call", "what name")


class Runs:
    """Runs of one command in a folder of its own."""

    def __init__(self, program, library, folder, words):
        self.program, self.library, self.folder, self.words = program, library, folder, words.split()
        case = folder / self.words[1] if len(self.words) > 1 else None
        said = json.loads(case.read_text()) if case and case.suffix == ".json" else {}
        self.certificate = said.get("certificate") if self.words[0] == "check" else None
        self.runs = 0
        self.wrong = []

    def run(self, out=subprocess.PIPE, before=BEFORE, **settings):
        """How a run ends with these settings of the library, and its calls."""
        calls = self.folder / "calls"
        calls.unlink(missing_ok=True)
        self.lay(before)
        given = {name: str(value) for name, value in settings.items()}
        loaded = dict(os.environ, LD_PRELOAD=str(self.library), CALLS_TO=str(calls), **given)
        done = subprocess.run([self.program, *self.words], cwd=self.folder, env=loaded, stdout=out, stderr=subprocess.DEVNULL)
        told = calls.read_text().splitlines() if calls.exists() else []
        self.runs += 1
        return self.end(done), [Call(*line.split(" ", 1)) for line in told]

    def lay(self, before):
        """Puts what the certificate's file holds before a run, if there is to be one."""
        if self.certificate and before is not None:
            (self.folder / self.certificate).write_bytes(before)

    def end(self, done):
        """How a run ended."""
        file = self.folder / str(self.certificate)
        return End(done.returncode, done.stdout, file.read_bytes() if self.certificate and file.is_file() else None)

    def expect(self, what, end, wanted):
        """Notes where a run ended otherwise than it has to."""
        if end != wanted:
            self.wrong.append(f"{' '.join(self.words)}: {what}: {end}, not {wanted}")

    def unread(self, name, error=0):
        """The end of a run that can't read a file."""
        if error == errno.ENOMEM:
            return End(9, b"", self.held())
        return End(6, f"plcv: read {name}\n".encode(), self.held())

    def held(self):
        return BEFORE if self.certificate else None


def failed(runs, whole, calls, at, error):
    """The end that a run has to have in which the call of this number fails, and the calls that follow it."""
    what, name = calls[at]
    before = sum(call == calls[at] for call in calls[:at]) * PIECE
    if what == "close":
        return whole, calls[at + 1:]
    if what in ("open", "read"):
        end = runs.unread(name, error)
        told = [Call("write", "-")] * -(-len(end.text) // PIECE)
        return end, [Call("close", name)] * (what == "read") + told
    if what == "create":
        return End(7, b"", runs.held()), []
    if name == "-":
        return End(7, whole.text[:before], whole.file), []
    return End(7, b"", whole.file[:before]), [Call("close", name)]


def calls_fail(runs, whole):
    """Each call fails in turn, with each error."""
    end, calls = runs.run(PIECE=PIECE)
    runs.expect("by pieces", end, whole)
    for at, call in enumerate(calls):
        for error in ERRORS[call.what]:
            end, made = runs.run(PIECE=PIECE, FAIL_AT=at + 1, FAIL_WITH=error)
            wanted, after = failed(runs, whole, calls, at, error)
            what = f"call {at + 1}, {call.what} {call.name}, error {error}"
            runs.expect(what, end, wanted)
            runs.expect(f"{what}: calls", made, calls[:at + 1] + after)


def room_ends(runs, whole):
    """The output, and the certificate's file, have room for each number of bytes that is too few."""
    for room in range(len(whole.text)):
        end, _ = runs.run(OUT_ROOM=room, FAIL_WITH=errno.ENOSPC)
        runs.expect(f"room for {room} bytes printed", end, whole._replace(status=7, text=whole.text[:room]))
    for room in range(len(whole.file or b"")):
        end, _ = runs.run(FILE_ROOM=room, FAIL_WITH=errno.ENOSPC)
        runs.expect(f"room for {room} bytes in the certificate", end, End(7, b"", whole.file[:room]))


def nothing_fails(runs, whole):
    """Reads and writes go by other pieces, and both ends of the room suffice."""
    for piece in (1, 7):
        runs.expect(f"by {piece} bytes", runs.run(PIECE=piece)[0], whole)
    rooms = {"OUT_ROOM": len(whole.text), "FILE_ROOM": len(whole.file or b"")}
    runs.expect("room for all", runs.run(**rooms)[0], whole)


def faults_twice(runs, whole, names):
    """A file can't be read, and the line that says so finds no room."""
    line = runs.unread(names[0]).text
    for room in range(len(line)):
        end, _ = runs.run(FAIL_AT=1, FAIL_WITH=errno.EIO, OUT_ROOM=room)
        runs.expect(f"no file and room for {room} bytes", end, End(7, line[:room], runs.held()))


def files_are_gone(runs, names):
    """A file isn't there, or is a folder."""
    for name in names:
        file, away = runs.folder / name, runs.folder / "away"
        file.rename(away)
        runs.expect(f"no {name}", runs.run()[0], runs.unread(name))
        file.mkdir()
        runs.expect(f"the folder {name}", runs.run()[0], runs.unread(name))
        file.rmdir()
        away.rename(file)


def no_output(runs, whole):
    """The system's own device that takes nothing, and an output and a reader that are gone."""
    with open("/dev/full", "wb") as full:
        runs.expect("/dev/full", runs.run(out=full)[0], End(7, None, whole.file))
    reader, writer = os.pipe()
    os.close(reader)
    runs.expect("a pipe without a reader", runs.run(out=writer)[0], End(7, None, whole.file))
    os.close(writer)
    runs.lay(BEFORE)
    closed = subprocess.run(["sh", "-c", 'exec "$@" >&-', "sh", runs.program, *runs.words], cwd=runs.folder, stderr=subprocess.DEVNULL)
    runs.expect("no output", runs.end(closed), End(7, None, whole.file))


def no_file(runs):
    """The certificate's file is a folder, or its folder isn't there."""
    file = runs.folder / runs.certificate
    file.unlink()
    file.mkdir()
    runs.expect("a folder for the certificate", runs.run(before=None)[0], End(7, b"", None))
    file.rmdir()
    case = runs.folder / runs.words[1]
    text = case.read_text()
    case.write_text(json.dumps(json.loads(text) | {"certificate": "nowhere/c.txt"}))
    runs.expect("no folder for the certificate", runs.run(before=None)[0], End(7, b"", None))
    case.write_text(text)


def swept(program, library, folder, words, status, line):
    """What is wrong with the runs of a command, how many there were, and a line on them."""
    runs = Runs(program, library, folder, words)
    whole, calls = runs.run()
    if whole.status != status or line not in whole.text.decode().splitlines():
        return [f"{words}: {whole}, not status {status} with the line {line}"], 1
    names = [call.name for call in calls if call.what == "open"]
    calls_fail(runs, whole)
    room_ends(runs, whole)
    nothing_fails(runs, whole)
    no_output(runs, whole)
    if names:
        faults_twice(runs, whole, names)
        files_are_gone(runs, names)
    if runs.certificate:
        no_file(runs)
    return runs.wrong, runs.runs


def filled(folder):
    """Puts the examples and the cases into a folder."""
    shutil.copytree(ROOT / "examples", folder / "examples")
    for name, text in SOURCES.items():
        (folder / name).write_text(text)
    for name, (example, changes, _, _) in CASES.items():
        case = json.loads((ROOT / "examples" / example / "case.json").read_text()) | changes
        if "sources" in changes:
            case["sources"] = [{"file": file, "language": "scl"} for file in changes["sources"]]
        (folder / f"{name}.json").write_text(json.dumps(case | {"certificate": f"{name}.txt"}))
    return folder


def swept_apart(program, library, words, status, line):
    """The same in a folder of its own, with the certificates that are rechecked."""
    with tempfile.TemporaryDirectory() as place:
        folder = filled(pathlib.Path(place))
        if words.startswith("recheck"):
            for name in CASES:
                subprocess.run([program, "check", f"{name}.json"], cwd=folder, stdout=subprocess.DEVNULL)
        return swept(program, library, folder, words, status, line)


def main():
    program = pathlib.Path(sys.argv[1]).resolve() if len(sys.argv) > 1 else ROOT / "crates" / "plcv" / "out" / "plcv"
    commands = [(f"check {name}.json", status, line) for name, (_, _, status, line) in CASES.items()]
    commands += [(f"recheck {name}.json {name}.txt", status, line) for name, (_, _, status, line) in CASES.items()]
    right = True
    with tempfile.TemporaryDirectory() as folder, concurrent.futures.ThreadPoolExecutor(os.cpu_count()) as pool:
        library = pathlib.Path(folder) / "devices.so"
        subprocess.run(["gcc", "-O1", "-shared", "-fPIC", "-o", library, HERE / "devices.c", "-ldl"], check=True)
        done = [(words, pool.submit(swept_apart, program, library, words, *answer)) for words, *answer in commands + COMMANDS]
        for words, future in done:
            wrong, runs = future.result()
            for fault in wrong:
                print(fault, flush=True)
            print(f"{words}: {runs} runs, {len(wrong)} of them wrong", flush=True)
            right = right and not wrong
    sys.exit(not right)


if __name__ == "__main__":
    main()
