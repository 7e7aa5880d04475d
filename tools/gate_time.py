#!/usr/bin/env python3
"""Measures where the processor time of a running gate goes, by crate and kind.

    tools/gate_time.py [--every SECONDS] [--of PID]

Start it, and then `rt ci` elsewhere, with no other proof on the machine. Or start `rt ci` first, and name its
process by `--of`: then the provers of others are not counted. It samples all provers, forked ones too. It writes
its table when none has run for a minute, or when it is interrupted. What a process takes after
its last sample is not counted, so the sums are a little too low. Kinds: `proof` of a crate or of its tests, and
`edits` with their first checks.
"""
import argparse
import collections
import os
import time

TICKS = os.sysconf("SC_CLK_TCK")
QUIET = 60


def fields_of(pid):
    """The fields of a process's state after its name: the first is the state itself."""
    with open(f"/proc/{pid}/stat") as file:
        text = file.read()
    return text[text.rindex(")") + 2:].split()


def is_below(pid, top):
    """Whether a process was started by this one, or by one that was."""
    while pid not in ("0", "1", top):
        pid = fields_of(pid)[1]
    return pid == top


def work_of(pid):
    """The crate that a process proves and the kind of that work, or None."""
    with open(f"/proc/{pid}/cmdline", "rb") as file:
        words = [word.decode(errors="replace") for word in file.read().split(b"\0")]
    if "--crate-name" not in words or not os.path.basename(words[0]).startswith("rattle"):
        return None
    crate = words[words.index("--crate-name") + 1]
    folder = os.readlink(f"/proc/{pid}/cwd")
    if "/rt-edit-" in folder:
        return crate, "edits"
    return (crate, "proof") if words[1] == "build" else None


def sample(seen, top):
    """Notes the time of each prover below this process, or of each, that runs now. Returns whether there was one."""
    found = False
    for pid in filter(str.isdigit, os.listdir("/proc")):
        try:
            work = work_of(pid)
            if work and (top is None or is_below(pid, top)):
                fields = fields_of(pid)
                seen[pid, fields[19]] = work, (int(fields[11]) + int(fields[12])) / TICKS
                found = True
        except (OSError, ValueError, IndexError):
            continue  # it ended meanwhile
    return found


def print_table(seen):
    """Prints seconds by crate and kind, the largest first, and the sums."""
    sums = collections.Counter()
    for (crate, kind), seconds in seen.values():
        sums[crate, kind] += seconds
    for (crate, kind), seconds in sums.most_common():
        print(f"{seconds:8.0f} s  {kind:6}  {crate}")
    for kind in ("proof", "edits"):
        print(f"{sum(s for (_, k), s in sums.items() if k == kind) / 60:8.1f} min {kind}")


def main():
    """Samples until the gate has ended."""
    options = argparse.ArgumentParser(description=__doc__.splitlines()[0])
    options.add_argument("--every", type=float, default=1.0, help="seconds between two samples")
    options.add_argument("--of", metavar="PID", help="counts only the provers that this `rt ci` started")
    arguments = options.parse_args()
    seen, last = {}, None
    try:
        while last is None or time.monotonic() - last < QUIET:
            if sample(seen, arguments.of):
                last = time.monotonic()
            time.sleep(arguments.every)
    except KeyboardInterrupt:
        pass
    print_table(seen)


if __name__ == "__main__":
    main()
