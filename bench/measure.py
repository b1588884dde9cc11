"""Processor time and peak memory of a program, which the scripts of this folder compare at n and 2n."""
import os
import subprocess
import sys
import tempfile


def measured(command, statuses=(0,), runs=5):
    """Seconds of processor time and peak MiB of the run that took least, and what it wrote to standard output.

    GNU time starts the program, so that the peak isn't that of this interpreter."""
    best = None
    for _ in range(runs):
        with tempfile.NamedTemporaryFile("r") as peak, tempfile.TemporaryFile("w+") as said:
            child = subprocess.Popen(["/usr/bin/time", "-q", "-f", "%M", "-o", peak.name, *map(str, command)], stdout=said)
            _, status, usage = os.wait4(child.pid, 0)
            child.returncode = os.waitstatus_to_exitcode(status)
            said.seek(0)
            text = said.read()
            if child.returncode not in statuses:
                sys.exit(f"{command}: status {child.returncode}: {text}")
            took = usage.ru_utime + usage.ru_stime
            if best is None or took < best[0]:
                best = (took, int(peak.read().split()[-1]) / 1024, text)
    return best


def instructions(command):
    """The instructions of a run, which no load changes; it needs `valgrind`."""
    counting = ["valgrind", "--tool=callgrind", "--callgrind-out-file=/dev/null", *map(str, command)]
    said = subprocess.run(counting, capture_output=True, text=True, check=True).stderr
    return int(said.split("Collected : ")[1].split()[0])


def compare(name, one, two):
    """Prints what the two runs took, the second with twice the input, and the ratios."""
    for label, (took, peak, _) in (one, two):
        print(f"{name}, {label}: {took:.3f} s, {peak:.1f} MiB")
    (took, peak, _), (took_two, peak_two, _) = one[1], two[1]
    print(f"{name}: {took_two / took:.2f} times the time, {peak_two / peak:.2f} times the memory", flush=True)


def machine():
    """The machine's size."""
    memory = os.sysconf("SC_PAGE_SIZE") * os.sysconf("SC_PHYS_PAGES") / 2**30
    print(f"{os.cpu_count()} processors, {memory:.1f} GiB", flush=True)
