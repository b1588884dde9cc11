#!/usr/bin/env python3
"""Runs `rt ci --anew` in a folder and prints the processor minutes of its proofs, tests and wrong bodies by crate: gate-time.sh calls it.

Usage: gate_time.py FOLDER [NAME..]. The processes of that run are looked at twice a second: the prover's command line names the crate and
its tests, and a wrong body is checked in a folder rt-edit. The sum is exact, as the system tells it once the run has ended; what it has
beyond the crates is rt's own work, the runs of tests and programs, and what ended since the last look at a process."""
import collections
import os
import pathlib
import subprocess
import sys
import time

EACH = 0.5
TICKS = os.sysconf("SC_CLK_TCK")
PARTS = ("proof", "tests", "wrong bodies")


class Process:
    """A process of the run: its parent, the crate and part that it works for, and the seconds of processor time that it had at the last look."""

    def __init__(self, parent):
        self.parent, self.work, self.seconds = parent, None, 0.0


class Looks:
    """What the looks at a session's processes have found."""

    def __init__(self, session):
        self.session, self.processes, self.loads = session, {}, []

    def look(self):
        """Notes the processor time of each process of the session."""
        self.loads.append(os.getloadavg()[0])
        for folder in pathlib.Path("/proc").glob("[0-9]*"):
            try:
                self.look_at(folder)
            except OSError:
                # (it has ended)
                pass

    def look_at(self, folder):
        # (the fields follow the command's name, which is in parentheses)
        fields = (folder / "stat").read_text(errors="replace").rpartition(")")[2].split()
        if int(fields[3]) != self.session:
            return
        process = self.processes.setdefault((folder.name, fields[19]), Process(fields[1]))
        process.seconds = (int(fields[11]) + int(fields[12])) / TICKS
        if not process.work:
            process.work = work_of(folder)

    def by_crate(self):
        """The seconds by crate and part."""
        work = {number: process.work for (number, _), process in self.processes.items()}
        found = collections.defaultdict(collections.Counter)
        for process in self.processes.values():
            crate, part = process.work or work.get(process.parent) or (None, None)
            if crate:
                found[crate][part] += process.seconds
        return found


def work_of(folder):
    """The crate and the part that the command line of a process names, if it does."""
    words = (folder / "cmdline").read_bytes().decode(errors="replace").split("\0")
    if "--crate-name" not in words:
        return None
    crate = words[words.index("--crate-name") + 1]
    if "rt-edit" in os.readlink(folder / "cwd"):
        return crate, "wrong bodies"
    return crate, "tests" if "--test" in words else "proof"


def measured(folder, names, log):
    """Runs the gate: the looks at it, its status, and the seconds of the processors and of the clock."""
    began = time.monotonic()
    run = subprocess.Popen(["rt", "ci", "--anew", *names], cwd=folder, stdin=subprocess.DEVNULL, stdout=log, stderr=log, start_new_session=True)
    looks = Looks(run.pid)
    try:
        while True:
            ended, status, usage = os.wait4(run.pid, os.WNOHANG)
            if ended:
                run.returncode = os.waitstatus_to_exitcode(status)
                return looks, run.returncode, usage.ru_utime + usage.ru_stime, time.monotonic() - began
            looks.look()
            time.sleep(EACH)
    finally:
        if run.returncode is None:
            run.terminate()


def row(name, *seconds):
    print(f"{name:<24}" + "".join(f"{it / 60:>14.2f}" for it in seconds))


def main():
    folder, *names = sys.argv[1:]
    with open(f"{folder}/log", "w+", encoding="utf-8", errors="replace") as log:
        looks, status, processors, clock = measured(folder, names, log)
        log.seek(0)
        said = log.read().splitlines()
    found = looks.by_crate()
    print(f"{'processor minutes':<24}" + "".join(f"{it:>14}" for it in (*PARTS, "together")))
    for crate in sorted(found, key=lambda it: -found[it].total()):
        row(crate, *(found[crate][part] for part in PARTS), found[crate].total())
    sums = [sum(each[part] for each in found.values()) for part in PARTS]
    row("all crates", *sums, sum(sums))
    print(f"with all else {processors / 60:.2f} minutes of processor time; {clock / 60:.2f} minutes by the clock, {os.cpu_count()} processors, "
          f"the machine's load {sum(looks.loads) / len(looks.loads):.1f}")
    print("\n".join(said[-1:] if status == 0 else said[-20:]))
    sys.exit(status)


if __name__ == "__main__":
    main()
