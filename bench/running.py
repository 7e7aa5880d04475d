"""Runs of programs for bench.py: for their bytes, for their peak memory, and for their times."""
import os
import subprocess
import time
from pathlib import Path

GNU_TIME = Path("/usr/bin/time")


class Failed(Exception):
    """A run or a comparison that ends the measurement; the text says which."""


def shown(command):
    """A command as one text."""
    return " ".join(str(word) for word in command)


def begins(command):
    """Whether the command can be run, with status 0."""
    try:
        return subprocess.run(command, capture_output=True, check=False).returncode == 0
    except OSError:
        return False


def peak_and_bytes(command, folder):
    """One run: its peak memory in KiB, or None, and its output.

    The kernel counts the memory of this script to a child that it starts itself. GNU time is a small
    process of its own, so what it says of its child is right down to about 2 MB."""
    peak = folder / "peak"
    wrapped = [GNU_TIME, "-q", "-f", "%M", "-o", peak, *command] if GNU_TIME.exists() else command
    run = subprocess.run(wrapped, capture_output=True, check=False)
    if run.returncode:
        raise Failed(f"{shown(command)}: status {run.returncode}: {run.stderr.decode(errors='replace').strip()}")
    return int(peak.read_text()) if GNU_TIME.exists() else None, run.stdout


def seconds(command, expected=0):
    """Wall time and processor time of one run whose output is thrown away."""
    with open(os.devnull, "wb") as sink:
        begin = time.perf_counter()
        child = subprocess.Popen(command, stdout=sink, stderr=subprocess.DEVNULL)
        _, status, used = os.wait4(child.pid, 0)
        wall = time.perf_counter() - begin
    child.returncode = os.waitstatus_to_exitcode(status)
    if child.returncode != expected:
        raise Failed(f"{shown(command)}: status {child.returncode} in a timed run")
    return wall, used.ru_utime + used.ru_stime


def rounds_of(commands, rounds, expected=0):
    """The times of each command: all run in turn within each round, and short ones in more rounds."""
    times = {label: [seconds(command, expected)] for label, command in commands.items()}
    short = sum(rows[0][0] for rows in times.values()) < 0.3
    for _ in range(rounds * (3 if short else 1) - 1):
        for label, command in commands.items():
            times[label].append(seconds(command, expected))
    return times
