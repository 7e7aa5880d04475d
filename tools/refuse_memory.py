#!/usr/bin/env python3
"""Refuses each allocation of the program in turn, and tests what the program then does.

    tools/refuse_memory.py [--bin FILE] [--after] [--step N] [-- WORD ..]

The words are those of the command line of `cloner`. By default they are those of `run`, `save` and
`resume` of the small example, one after the other. For n = 1, 2, .. the program runs with its n-th
allocation refused (with --after also all later ones), until a run asks for fewer than n. Each run must
end with status 0 and the whole output, or with status 1, nothing on the output and the line that says
so. It needs gcc and a C library that is linked dynamically.
"""
import argparse
import collections
import os
import subprocess
import sys
import tempfile
from pathlib import Path

HERE = Path(__file__).resolve().parent
TOP = HERE.parent
BUILT = TOP / "crates" / "cloner_cli" / "out" / "cloner_cli"
MODEL, SCRIPT = str(TOP / "examples" / "small.toml"), str(TOP / "examples" / "small.txt")
OUT_OF_MEMORY = b"cloner: out of memory\n"


def arguments():
    """The options of this script."""
    parser = argparse.ArgumentParser(description="Refuses each allocation of `cloner` in turn.")
    parser.add_argument("--bin", type=Path, metavar="FILE", default=BUILT, help="the program; by default as built")
    parser.add_argument("--after", action="store_true", help="refuse all allocations from the n-th on")
    parser.add_argument("--step", type=int, default=1, metavar="N", help="try every N-th number only; by default 1")
    parser.add_argument("words", nargs="*", metavar="WORD", help="the words; by default three modes of the small example")
    return parser.parse_args()


def commands(chosen, folder):
    """The command lines that are tried; the snapshot that is resumed is written into the folder."""
    program = str(chosen.bin.resolve())
    if chosen.words:
        return [[program, *chosen.words]]
    save = [program, "save", MODEL, SCRIPT, "--clone", "fast", "--until", "10"]
    snapshot = folder / "snapshot.txt"
    snapshot.write_bytes(subprocess.run(save, capture_output=True, check=False).stdout)
    return [[program, "run", MODEL, SCRIPT], save, [program, "resume", MODEL, str(snapshot)]]


def library(folder):
    """The library that refuses, built in the folder."""
    built = folder / "refuse_memory.so"
    subprocess.run(["gcc", "-O1", "-shared", "-fPIC", "-o", built, HERE / "refuse_memory.c"], check=True)
    return built


def refused(command, preload, number, after):
    """One run with an allocation refused: whether it was reached, and how the run ended."""
    reading, writing = os.pipe()
    environment = dict(os.environ, LD_PRELOAD=str(preload), REFUSE_NUMBER=str(number), REFUSE_AFTER=str(int(after)),
                       REFUSE_MARK=str(writing))
    run = subprocess.run(command, env=environment, pass_fds=[writing], capture_output=True, check=False, timeout=600)
    os.close(writing)
    with os.fdopen(reading, "rb") as marks:
        return bool(marks.read(1)), run


def fault(run, whole):
    """What is wrong with the end of a run, or None."""
    if run.returncode == 0:
        return None if run.stdout == whole else "status 0 without the whole output"
    if run.returncode != 1:
        return f"status {run.returncode}, {run.stderr[:80]!r}"
    if run.stdout:
        return f"status 1 after {len(run.stdout)} bytes of output"
    return None if run.stderr == OUT_OF_MEMORY else f"status 1 with the line {run.stderr[:80]!r}"


def tried(command, preload, chosen):
    """Runs with each number in turn: the statuses' counts, the faults, and how many are asked in all."""
    first = subprocess.run(command, capture_output=True, check=False)
    if first.returncode:
        sys.exit(f"with all its memory the program ends with status {first.returncode}: {first.stderr.decode()}")
    statuses, faults, number = collections.Counter(), [], 1
    while True:
        reached, run = refused(command, preload, number, chosen.after)
        why = fault(run, first.stdout)
        if why:
            faults.append((number, why))
        if not reached:
            return statuses, faults, number - 1
        statuses[run.returncode] += 1
        number += chosen.step


def report(command, statuses, faults, asked):
    """Prints what came out for a command."""
    counts = ", ".join(f"status {status}: {count}" for status, count in sorted(statuses.items()))
    print(f"{command[1]}: {asked} allocations, {sum(statuses.values())} refused in turn; {counts}; "
          f"{len(faults)} runs ended badly")
    for number, why in faults[:20]:
        print(f"  allocation {number}: {why}")


def main():
    """Tries all numbers and says what came out; status 1 where a run ended badly."""
    chosen, bad = arguments(), False
    with tempfile.TemporaryDirectory() as folder:
        preload = library(Path(folder))
        for command in commands(chosen, Path(folder)):
            statuses, faults, asked = tried(command, preload, chosen)
            report(command, statuses, faults, asked)
            bad = bad or bool(faults)
    sys.exit(bad)


if __name__ == "__main__":
    main()
