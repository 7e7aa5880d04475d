#!/usr/bin/env python3
"""Runs studies whose branches share all, much, little or nothing, and tests each branch's text.

    tools/shared_texts.py [--bin FILE] [--plain FILE] [--writes] [ROW ..]

`run` keeps the first lines of a branch's text for the next branch, up to the time at which the two part, and makes the
others page by page; a crew makes those of long texts in parts. So the rows of shared_rows.py have branches that part in
different ways, and lines with numbers of all lengths. With 1, 2, 4 and 16 workers the output must be the texts that
`solo` writes of each branch, in order, and a report. With --plain these must be the texts of the plain simulator of
bench/, too. With --writes each of the first 1,199 writes to the output is refused in turn, whole or after half of its
bytes, with one worker and with four. Then the program must end with status 8, and its output must be a beginning of the
whole one. This needs gcc and a C library that is linked dynamically. The status is 1 if a row failed.
"""
import argparse
import os
import re
import subprocess
import sys
import tempfile
from pathlib import Path

from shared_rows import rows

HERE = Path(__file__).resolve().parent
TOP = HERE.parent
BUILT = TOP / "crates" / "cloner_cli" / "out" / "cloner_cli"
CANNOT_WRITE = b"cloner: cannot write\n"
WORKERS = (1, 2, 4, 16)
WRITERS = (1, 4)
MAX_WRITES = 1199


def run(words, preload=None):
    """A run of the program, with a library and its settings if there is one."""
    return subprocess.run(words, env=dict(os.environ, **(preload or {})), capture_output=True, check=False, timeout=600)


def alone(program, model, script, text):
    """The texts that `solo` writes of each branch of a script, one after the other."""
    names = ["base"] + re.findall(r"(?m)^fork (\S+)", text)
    return b"".join(run([program, "solo", model, script, "--clone", name]).stdout for name in names)


def command_of(program, folder, workers):
    """The command line of a row's study, whose files are in the folder."""
    return [program, "run", folder / "model.toml", folder / "script.txt", "--workers", str(workers)]


def refused(command, whole, library):
    """What is wrong with the runs in which a write is refused, or None."""
    for half in ("0", "1"):
        for number in range(1, MAX_WRITES + 1):
            ended = run(command, {"LD_PRELOAD": str(library), "REFUSE_NUMBER": str(number), "REFUSE_HALF": half})
            if not ended.returncode and ended.stdout == whole:
                break
            if ended.returncode != 8 or ended.stderr != CANNOT_WRITE or not whole.startswith(ended.stdout):
                return f"with write {number} refused, status {ended.returncode} after {len(ended.stdout)} bytes"
    return None


def unlike(row, chosen, folder):
    """What is wrong with the texts of a row, or None."""
    model, script = folder / "model.toml", folder / "script.txt"
    texts = alone(chosen.bin, model, script, row.script)
    if chosen.plain and run([chosen.plain, model, script]).stdout != texts:
        return "a text of `solo` is not that of the plain simulator"
    for workers in WORKERS:
        ended = run(command_of(chosen.bin, folder, workers))
        if ended.returncode or ended.stderr:
            return f"{workers} workers: status {ended.returncode}, {ended.stderr[:80]!r}"
        if not ended.stdout.startswith(texts + b"report\n"):
            return f"{workers} workers: a text is not that of `solo`"
    return None


def fault(row, chosen, folder, library):
    """What is wrong with a row, or None."""
    (folder / "model.toml").write_text(row.model, encoding="utf-8")
    (folder / "script.txt").write_text(row.script, encoding="utf-8")
    why = unlike(row, chosen, folder)
    for workers in WRITERS if library and not why else ():
        command = command_of(chosen.bin, folder, workers)
        why = why or refused(command, run(command).stdout, library)
    return why


def library_in(folder):
    """The library that refuses writes, built in the folder."""
    built = folder / "refuse_write.so"
    subprocess.run(["gcc", "-O1", "-shared", "-fPIC", "-o", built, HERE / "refuse_write.c", "-ldl"], check=True)
    return built


def arguments():
    """The options of this script."""
    parser = argparse.ArgumentParser(description="Tests the texts of branches that share much or little.")
    parser.add_argument("--bin", type=Path, metavar="FILE", default=BUILT, help="the program; by default as built")
    parser.add_argument("--plain", type=Path, metavar="FILE", help="the plain simulator, as bench.py builds it")
    parser.add_argument("--writes", action="store_true", help="also refuse each write in turn")
    parser.add_argument("rows", nargs="*", metavar="ROW", help="the rows; by default all")
    return parser.parse_args()


def main():
    """Tries the rows and says what came out; status 1 if one failed."""
    chosen, bad = arguments(), False
    chosen.bin, chosen.plain = chosen.bin.resolve(), chosen.plain and chosen.plain.resolve()
    with tempfile.TemporaryDirectory() as name:
        folder = Path(name)
        library = library_in(folder) if chosen.writes else None
        for row in rows():
            if chosen.rows and row.name not in chosen.rows:
                continue
            why = fault(row, chosen, folder, library)
            print(f"{row.name}: {why or 'as by solo'}", flush=True)
            bad = bad or why is not None
    sys.exit(bad)


if __name__ == "__main__":
    main()
