#!/usr/bin/env python3
"""Makes models and scripts, valid and mutated, and compares what `cloner` writes of them in several ways.

    tools/fuzz.py [--bin FILE] [--cases N] [--seed N] [--first N] [--keep DIR] [--plain FILE] [--stop N]

For each case it compares

- `run` with `solo` of each clone, and 1 worker with 4 and 16;
- the report with counts from the traces, and the order of the traces' lines;
- `live` with its journal under `run`, with what its analysts asked, and its looks with the traces;
- `stats` with figures from the traces;
- `watch`, with watches made for the case, with `run` of the script that the due times give;
- `links` with `run`, and with rounds worked out from the model;
- `save` and `resume` with a slow simulator and `solo`, and damaged snapshots with the refusals that they must get;
- each refusal with the formats written once more, the form of its line, and that there is no output;
- with --plain, the traces with those of the plain simulator of bench/.

Modes and options that the program does not know are left out. A case that fails is kept in a folder, with its model,
its script, its watches, its snapshot and what was found. The status is then 1.
"""
import argparse
import collections
import os
import re
import shutil
import signal
import sys
import tempfile
import time
from pathlib import Path

from fuzz_cases import made_case
from fuzz_links import check_links
from fuzz_live import Difference, check_live
from fuzz_model import expected_model
from fuzz_save import check_save
from fuzz_script import decided, expected
from fuzz_stats import expected_stats
from fuzz_watch import check_watch

TOP = Path(__file__).resolve().parent.parent
BUILT = TOP / "crates" / "cloner_cli" / "out" / "cloner_cli"
SECONDS = 60
ERRORS = {4: rb"cloner: model: refusal \d+ at station \d+( key [a-z0-9_?]{0,32})?\n",
          5: rb"cloner: script: refusal \d+ at line \d+\n",
          6: rb"cloner: decision: refusal \d+ at line \d+\n",
          7: rb"cloner: limit \d+ met at station [a-z0-9_]+ in clone ([a-z0-9_]+)\n"}

Ended = collections.namedtuple("Ended", "status out err")


def arguments():
    """The options of this script."""
    parser = argparse.ArgumentParser(description="Compares `cloner run` with `cloner solo` and itself on made cases.")
    parser.add_argument("--bin", type=Path, metavar="FILE", default=BUILT, help="the program; by default as built")
    parser.add_argument("--cases", type=int, default=1000, metavar="N", help="how many cases; by default 1000")
    parser.add_argument("--seed", type=int, default=1, metavar="N", help="the cases' seed; by default 1")
    parser.add_argument("--first", type=int, default=0, metavar="N", help="the first case's number; by default 0")
    parser.add_argument("--keep", type=Path, metavar="DIR", default=Path("fuzz-failed"),
                        help="where cases that fail are written; by default fuzz-failed")
    parser.add_argument("--plain", type=Path, metavar="FILE", help="the plain simulator, as bench.py builds it")
    parser.add_argument("--stop", type=int, default=20, metavar="N", help="stop after N failures; by default 20")
    return parser.parse_args()


def rung(*_):
    """The alarm of a run that takes too long."""
    raise TimeoutError


class Runner:
    """Starts the programs, with the files of the present case in a folder of its own."""

    def __init__(self, program, plain, folder):
        self.program, self.plain = str(program.resolve()), plain and str(plain.resolve())
        self.model, self.script, self.plainest = (str(folder / name) for name in ("model", "script", "plainest"))
        self.watches, self.snapshot = str(folder / "watches"), str(folder / "snapshot")
        self.other = str(folder / "other")
        self.out, self.err, self.runs = str(folder / "out"), str(folder / "err"), 0
        self.workers, self.knows = [], []
        signal.signal(signal.SIGALRM, rung)

    def started(self, words):
        """Runs the words to their end."""
        self.runs += 1
        flags = os.O_WRONLY | os.O_CREAT | os.O_TRUNC
        actions = [(os.POSIX_SPAWN_OPEN, 1, self.out, flags, 0o600), (os.POSIX_SPAWN_OPEN, 2, self.err, flags, 0o600)]
        child = os.posix_spawn(words[0], words, os.environ, file_actions=actions)
        signal.setitimer(signal.ITIMER_REAL, SECONDS)
        try:
            status = os.waitstatus_to_exitcode(os.waitpid(child, 0)[1])
        except TimeoutError:
            os.kill(child, signal.SIGKILL)
            os.waitpid(child, 0)
            raise Difference(f"{' '.join(words[1:])}: no end within {SECONDS} seconds") from None
        finally:
            signal.setitimer(signal.ITIMER_REAL, 0)
        with open(self.out, "rb") as out, open(self.err, "rb") as err:
            return Ended(status, out.read(), err.read())

    def run(self, *more):
        """`cloner run` of the present case."""
        return self.started([self.program, "run", self.model, self.script, *more])

    def solo(self, clone):
        """`cloner solo` of a clone of the present case."""
        return self.started([self.program, "solo", self.model, self.script, "--clone", clone])

    def live(self, *more):
        """`cloner live` of the present case."""
        return self.started([self.program, "live", self.model, self.script, *more])

    def stats(self, *more):
        """`cloner stats` of the present case."""
        return self.started([self.program, "stats", self.model, self.script, *more])

    def watch(self, *more):
        """`cloner watch` of the present case with the present watches."""
        return self.started([self.program, "watch", self.model, self.script, self.watches, *more])

    def links(self, *more):
        """`cloner links` of the present case."""
        return self.started([self.program, "links", self.model, self.script, *more])

    def save(self, clone, until):
        """`cloner save` of a clone of the present case until a time."""
        return self.started([self.program, "save", self.model, self.script, "--clone", clone, "--until", str(until)])

    def resume(self):
        """`cloner resume` of the present snapshot."""
        return self.started([self.program, "resume", self.model, self.snapshot])

    def run_script(self, script, model=None):
        """`cloner run` of the present model, or of another one, with another script."""
        write(self.plainest, script)
        if model:
            write(self.other, model)
        return self.started([self.program, "run", self.other if model else self.model, self.plainest])

    def write_watches(self, watches):
        """Makes the present file of watches, or sees that there is none."""
        write_or_remove(self.watches, watches)

    def write_snapshot(self, snapshot):
        """Makes the present snapshot, or sees that there is none."""
        write_or_remove(self.snapshot, snapshot)

    def options(self):
        """The options with which a mode is compared: none, and more workers."""
        return [[]] + [["--workers", number] for number in self.workers[:1]]

    def find_abilities(self):
        """Notes which numbers of workers the program knows, and which of its later modes."""
        write(self.model, (TOP / "examples" / "small.toml").read_bytes())
        write(self.script, (TOP / "examples" / "small.txt").read_bytes())
        write(self.watches, b"")
        self.workers = [number for number in ("4", "16") if self.run("--workers", number).status == 0]
        self.knows = [mode for mode in ("stats", "watch") if getattr(self, mode)().status == 0]
        if re.search(rb"\nrounds \d+\n\Z", self.links().out):
            self.knows.append("links")
        if self.save("base", 10).status == 0:
            self.knows.append("save")


def write(path, data):
    """Writes a file whole."""
    with open(path, "wb") as file:
        file.write(data)


def write_or_remove(path, data):
    """Writes a file whole, or removes it if there is no data."""
    if data is None:
        Path(path).unlink(missing_ok=True)
    else:
        write(path, data)


def check_end(ended):
    """The form of a run's end: a known status, its line, and output at status 0 alone."""
    if ended.status == 0:
        if ended.err:
            raise Difference(f"status 0 with the line {ended.err[:200]!r}")
        return
    if ended.status not in ERRORS:
        raise Difference(f"status {ended.status}: {ended.err[:200]!r}")
    if ended.out:
        raise Difference(f"status {ended.status} after {len(ended.out)} bytes of output")
    if not re.fullmatch(ERRORS[ended.status], ended.err):
        raise Difference(f"status {ended.status} with the line {ended.err[:200]!r}")


def split(out):
    """The traces of a run by clone, in order, and the lines of its report."""
    head, found, report = out.rpartition(b"report\n")
    if not found or not out.endswith(b"\n"):
        raise Difference("the output has no report")
    traces = {}
    for text in re.split(rb"(?m)^(?=clone )", head)[1:]:
        name = text[6:text.index(b"\n")].decode()
        if name in traces:
            raise Difference(f"two traces of {name}")
        traces[name] = text
    return traces, report.decode().splitlines()


def log_entries(trace, stations):
    """The entries of a trace by station: each line with its job's time of birth. Also tests the order."""
    number_of = {name: number for number, name in enumerate(stations, 1)}
    births, entries, last = {}, {name: [] for name in stations}, (-1,)
    for line in trace.decode().splitlines()[1:]:
        words = line.split(" ")
        receiver, job = words[1], words[5].partition(":")[0]
        key = (int(words[0]), number_of.get(words[2], 0), int(words[3]))
        if key <= last:
            raise Difference(f"the line {line!r} is out of order")
        last = key
        if words[4] == "tick":
            births[f"{receiver}.{int(words[5][5:]) - 1}"] = words[0]
        born = births[job] if words[4] in ("job", "done") else None
        entries[receiver].append((line, born))
    return entries


def counted_report(traces, stations):
    """The report's lines, counted from the traces: different logs, different beginnings, all entries."""
    nodes = {name: {} for name in stations}
    ends = {name: set() for name in stations}
    alone = dict.fromkeys(stations, 0)
    for trace in traces.values():
        for name, entries in log_entries(trace, stations).items():
            node = 0
            for entry in entries:
                node = nodes[name].setdefault((node, entry), len(nodes[name]) + 1)
            ends[name].add(node)
            alone[name] += len(entries)
    lines = [f"{n} copies={len(ends[n])} handled={len(nodes[n])} alone={alone[n]}" for n in stations]
    return lines + [f"total handled={sum(map(len, nodes.values()))} alone={sum(alone.values())}"]


def check_whole(runner, ended):
    """A run that ended well: its traces against `solo`, its report against counts."""
    traces, report = split(ended.out)
    for name, trace in traces.items():
        alone = runner.solo(name)
        check_end(alone)
        if alone.status != 0 or alone.out != trace:
            raise Difference(f"`solo` of {name} differs from `run`: status {alone.status} {alone.err[:200]!r}")
    stations = [line.split(" ")[0] for line in report[:-1]]
    counted = counted_report(traces, stations)
    if counted != report:
        wrong = next(pair for pair in zip(counted, report) if pair[0] != pair[1])
        raise Difference(f"the report says {wrong[1]!r}, the traces {wrong[0]!r}")


def check_refused(runner, ended):
    """A run that was refused: `solo` of `base` says the same, and at a limit the named clone meets one."""
    if ended.status != 7:
        alone = runner.solo("base")
        if alone != ended:
            raise Difference(f"`run` says {ended.err!r}, `solo` of base {alone.status} {alone.err[:200]!r}")
        return
    clone = re.fullmatch(ERRORS[7], ended.err).group(1).decode()
    alone = runner.solo(clone)
    check_end(alone)
    if alone.status != 7 or not alone.err.endswith(f"in clone {clone}\n".encode()):
        raise Difference(f"`run` says {ended.err!r}, `solo` of {clone} {alone.status} {alone.err[:200]!r}")


def check_said(case, ended):
    """The error line, or the clones, against what the formats say of the two texts."""
    line, model = expected_model(case.model)
    if case.plainest and line:
        raise Difference(f"fuzz itself: a made model would get {line!r}")
    if not line and not model:
        return
    clones = None
    if not line:
        line, clones = expected(case.script, model)
    if line and ended.err.decode() != line:
        raise Difference(f"{line!r} must be said, it is status {ended.status} {ended.err!r}")
    if not line and ended.status not in (0, 7):
        raise Difference(f"a valid model and script get {ended.err!r}")
    if not line and ended.status == 0 and list(split(ended.out)[0]) != clones:
        raise Difference(f"the traces are not those of {clones}")


def check_plain(runner, case, ended):
    """The traces against those of the plain simulator."""
    write(runner.plainest, case.plainest)
    words = [runner.plain, runner.plainest, runner.script]
    plain = runner.started(words + ["--share"] if len(case.script) % 2 else words)
    if plain.status or plain.out != ended.out[:ended.out.rindex(b"report\n")]:
        raise Difference(f"the plain simulator differs: status {plain.status} {plain.err[:200]!r}")


def check_lives(runner, case, ended):
    """`live` of the present case: refused texts as by `run`, and otherwise right on its own."""
    for more in runner.options():
        live = runner.live(*more)
        if ended.status in (4, 5):
            if live != ended:
                raise Difference(f"`live` says {live.status} {live.err[:200]!r}")
            continue
        try:
            check_live(live, case.script, runner.run_script, split, log_entries)
        except Difference as why:
            raise Difference(f"`live` {' '.join(more)}: {why}") from None


def check_stats(runner, case, ended):
    """`stats` of the present case: refused as `run` is, or the figures of the traces; unsure models are left out."""
    if not ended.status:
        model = expected_model(case.model)[1]
        if not model:
            return
        ends = decided(case.script, model)[1].ends
        ended = Ended(0, expected_stats(split(ended.out)[0], model, ends, log_entries), b"")
    for more in runner.options():
        stats = runner.stats(*more)
        if stats != ended:
            raise Difference(f"`stats` {' '.join(more)}: status {stats.status} {stats.err[:200]!r}, "
                             f"{stats.out[:400]!r} in place of {ended.out[:400]!r}")


def check_later_modes(runner, case, ended):
    """The modes that the program may not know."""
    if "stats" in runner.knows:
        check_stats(runner, case, ended)
    if "watch" in runner.knows:
        check_watch(runner, split, case, ended)
    if "links" in runner.knows:
        check_links(runner, split, case, ended)
    if "save" in runner.knows:
        check_save(runner, case, ended)


def check_case(runner, case):
    """All comparisons of the present case; gives the status of its run."""
    ended = runner.run()
    check_end(ended)
    check_said(case, ended)
    for number in runner.workers:
        other = runner.run("--workers", number)
        if other != ended:
            raise Difference(f"{number} workers: status {other.status} {other.err[:200]!r}; not as 1 worker")
    check_lives(runner, case, ended)
    check_later_modes(runner, case, ended)
    if ended.status:
        check_refused(runner, ended)
        return ended.status
    check_whole(runner, ended)
    if case.plainest and runner.plain:
        check_plain(runner, case, ended)
    return ended.status


def keep(folder, name, case, why):
    """Writes a case that failed, and what was found, into a folder."""
    place = folder / name
    place.mkdir(parents=True, exist_ok=True)
    parts = {"model.toml": case.model, "script.txt": case.script, "watches.txt": case.watches,
             "snapshot.txt": case.snapshot, "found.txt": f"{why}\n".encode()}
    for part, data in parts.items():
        if data is not None:
            write(place / part, data)
    print(f"case {name}: {why}", flush=True)


def fuzz(chosen, runner):
    """Goes through the cases: the statuses' counts, and the number of failures."""
    statuses, failures = collections.Counter(), 0
    for number in range(chosen.first, chosen.first + chosen.cases):
        case = made_case(chosen.seed, number)
        write(runner.model, case.model)
        write(runner.script, case.script)
        try:
            statuses[check_case(runner, case)] += 1
        except Difference as why:
            failures += 1
            keep(chosen.keep, f"{chosen.seed}-{number}", case, why)
            if failures >= chosen.stop:
                break
    return statuses, failures


def main():
    """Runs the cases and says how they ended."""
    chosen = arguments()
    begin = time.perf_counter()
    memory = Path("/dev/shm")
    folder = Path(tempfile.mkdtemp(dir=memory if memory.is_dir() else None))
    try:
        runner = Runner(chosen.bin, chosen.plain, folder)
        runner.find_abilities()
        statuses, failures = fuzz(chosen, runner)
    finally:
        shutil.rmtree(folder)
    cases = sum(statuses.values()) + failures
    counts = ", ".join(f"status {status}: {count}" for status, count in sorted(statuses.items()))
    workers = "1, " + ", ".join(runner.workers) if runner.workers else "no --workers"
    print(f"{cases} cases, {runner.runs} runs in {time.perf_counter() - begin:.0f} s; {counts}; "
          f"workers: {workers}; also: {', '.join(runner.knows) or 'none'}; {failures} differences")
    sys.exit(bool(failures))


if __name__ == "__main__":
    main()
