#!/usr/bin/env python3
"""Builds all that `cloner` is measured with, measures, and prints the tables as Markdown.

    bench/bench.py [--bin FILE] [--rounds N] [--workers N] [--only PART] [--plot FILE] [WORKLOAD ..]

Parts: `workloads` (beside the plain simulator), `solo`, `stats`, `links`, `watch`, `start`, `growth`
(also a plot as SVG), and `simpy`; by default all. Within each round all programs run in turn, with their output thrown away. Before
that each runs once for its bytes and its peak memory, and the bytes must be equal. Status 1 where a run
failed or bytes differ. README.md says what the columns mean.
"""
import argparse
import os
import statistics
import subprocess
import sys
import tempfile
from pathlib import Path

import plot
import workloads
from running import Failed, begins, peak_and_bytes, rounds_of, seconds

HERE = Path(__file__).resolve().parent
TOP = HERE.parent
CRATE = TOP / "crates" / "cloner_cli"
BUILT = CRATE / "out" / "cloner_cli"
PARTS = ("workloads", "solo", "stats", "links", "watch", "start", "growth", "simpy")
LINKED = ("clinic", "gen", "hub", "wide", "tight", "wait60000")
MAX_WATCHES = 255


def arguments():
    """The options of this script."""
    parser = argparse.ArgumentParser(description="Measures `cloner` beside unproved programs.")
    parser.add_argument("--bin", type=Path, metavar="FILE", help="the program; by default as built, built if absent")
    parser.add_argument("--rounds", type=int, default=7, metavar="N", help="how often each is timed; by default 7")
    parser.add_argument("--workers", type=int, default=4, metavar="N", help="measure so many workers too; by default 4")
    parser.add_argument("--only", action="append", choices=PARTS, metavar="PART", help="this part alone; repeatable")
    parser.add_argument("--plot", type=Path, metavar="FILE", default=Path("growth.svg"),
                        help="where the plot is written; by default growth.svg")
    parser.add_argument("workloads", nargs="*", metavar="WORKLOAD", help="names of workloads; by default all")
    chosen = parser.parse_args()
    unknown = [name for name in chosen.workloads if name not in workloads.WORKLOADS]
    if unknown or chosen.rounds < 1:
        parser.error(f"no workload {unknown[0]}" if unknown else "--rounds must be at least 1")
    return chosen


def program(given):
    """The program to measure, built where it is absent."""
    if given:
        return str(given.resolve())
    if not BUILT.exists():
        print("building the program with `rt run`; this proves it first and takes its time", flush=True)
        # `rt run` also runs what it built. Whether that run went well is not the question here.
        subprocess.run(["rt", "run"], cwd=CRATE, check=False)
    if not BUILT.exists():
        raise Failed(f"`rt run` in {CRATE.relative_to(TOP)} left no out/cloner_cli")
    return str(BUILT)


class Bench:
    """The programs, the folder for files, and the number of rounds."""

    def __init__(self, chosen, folder):
        self.cloner, self.folder, self.rounds = program(chosen.bin), folder, chosen.rounds
        self.plain = str(folder / "plain")
        subprocess.run(["rustc", "-O", "-C", "codegen-units=1", "-C", "panic=abort", "--edition", "2021",
                        "-o", self.plain, HERE / "plain.rs"], check=True)
        small = [str(TOP / "examples" / name) for name in ("small.toml", "small.txt")]
        self.small = [self.cloner, "run", *small]
        more = ["--workers", str(chosen.workers)]
        self.workers = more if chosen.workers > 1 and begins([*self.small, *more]) else None

    def files(self, name):
        """The files of a workload, as words of a command."""
        return [str(file) for file in workloads.write(self.folder, name)]


def printed(cells):
    """One row of a table."""
    print("| " + " | ".join(str(cell) for cell in cells) + " |", flush=True)


def headed(title, cells):
    """A title and the head of a table."""
    print(f"\n**{title}**\n")
    printed(cells)
    printed(["---"] * len(cells))


def ratio(times, label, other, kind):
    """The median over the rounds of a program's time to another's in the same round; kind 0 is wall, 1 processor."""
    return statistics.median(a[kind] / max(b[kind], 1e-6) for a, b in zip(times[label], times[other]))


def counts_of(name, outputs):
    """The counts of a run: clones, messages alone, messages handled once. All bytes must be equal."""
    whole = outputs["cloner"]
    place = whole.rfind(b"report\n")
    traces = whole[:place]
    for label, output in outputs.items():
        same = output == whole if label in ("cloner", "workers") else output == traces
        if not same:
            raise Failed(f"{name}: the bytes of {label} differ from those of `cloner run`")
    total = dict(word.split(b"=") for word in whole.splitlines()[-1].split()[1:])
    return traces.count(b"\nclone ") + 1, int(total[b"alone"]), int(total[b"handled"])


def workload_row(bench, name):
    """The cells of one workload."""
    files = bench.files(name)
    commands = {"plain": [bench.plain, *files], "stream": [bench.plain, *files, "--stream"],
                "share": [bench.plain, *files, "--share"], "cloner": [bench.cloner, "run", *files]}
    if bench.workers:
        commands["workers"] = [bench.cloner, "run", *files, *bench.workers]
    runs = {label: peak_and_bytes(command, bench.folder) for label, command in commands.items()}
    clones, alone, handled = counts_of(name, {label: run[1] for label, run in runs.items()})
    peaks = [runs[label][0] for label in ("cloner", "plain")]
    del runs
    times = rounds_of(commands, bench.rounds)
    nanoseconds = min(time[1] for time in times["plain"]) / alone * 1e9
    ratios = [f"{ratio(times, label, 'plain', 1):.2f}" for label in ("cloner", "stream", "share")]
    best = f"{ratio(times, 'cloner', 'share', 1):.2f}"
    side = f"{ratio(times, 'workers', 'cloner', 0):.2f}" if bench.workers else "-"
    memory = f"{peaks[0] / peaks[1]:.2f}" if None not in peaks else "-"
    return [name, clones, f"{alone:,}", f"{handled:,}", f"{nanoseconds:.0f}", *ratios, best, side, memory]


def measure_workloads(bench, names):
    """The table of workloads: processor times to plain's."""
    side = f"{bench.workers[1]} workers to 1, wall" if bench.workers else "workers"
    headed("Whole runs: processor time, to `plain`",
           ["workload", "clones", "messages", "handled once", "plain, ns a message", "`cloner`", "`plain --stream`",
            "`plain --share`", "`cloner` to `--share`", side, "memory, to plain"])
    for name in names or workloads.WORKLOADS:
        printed(workload_row(bench, name))


def measure_solo(bench):
    """The table of `cloner solo`, on models without a script."""
    headed("`cloner solo` of `base`, without decisions: processor time", ["model", "messages", "plain, ns a message",
                                                                         "`solo`, to plain"])
    empty = bench.folder / "empty.txt"
    empty.write_text("")
    for name in ("clinic", "wide", "heavy"):
        files = [bench.files(name)[0], str(empty)]
        commands = {"plain": [bench.plain, *files], "solo": [bench.cloner, "solo", *files, "--clone", "base"]}
        outputs = [peak_and_bytes(command, bench.folder)[1] for command in commands.values()]
        if outputs[0] != outputs[1]:
            raise Failed(f"{name}: the bytes of `solo` differ from plain's")
        messages = outputs[0].count(b"\n") - 1
        times = rounds_of(commands, bench.rounds)
        nanoseconds = min(time[1] for time in times["plain"]) / messages * 1e9
        printed([name, f"{messages:,}", f"{nanoseconds:.0f}", f"{ratio(times, 'solo', 'plain', 1):.2f}"])


def measure_stats(bench):
    """The table of `cloner stats`, which handles the messages of `cloner run` and writes figures in place of texts."""
    headed("`cloner stats`: processor time", ["workload", "lines of figures", "`run`, to plain", "`stats`, to plain",
                                              "`stats`, to `run`"])
    for name in ("clinic", "gen", "early", "equal", "wide"):
        files = bench.files(name)
        commands = {"plain": [bench.plain, *files], "run": [bench.cloner, "run", *files],
                    "stats": [bench.cloner, "stats", *files]}
        lines = peak_and_bytes(commands["stats"], bench.folder)[1].count(b"\n") - 1
        times = rounds_of(commands, bench.rounds)
        ratios = [f"{ratio(times, one, other, 1):.2f}"
                  for one, other in (("run", "plain"), ("stats", "plain"), ("stats", "run"))]
        printed([name, f"{lines:,}", *ratios])


def linked_row(bench, name):
    """The cells of one workload: `cloner links` beside `cloner run`, by one worker and by several."""
    files = bench.files(name)
    commands = {mode: [bench.cloner, mode, *files] for mode in ("run", "links")}
    commands |= {mode + " by many": [*commands[mode], *(bench.workers or [])] for mode in ("run", "links")}
    runs = {label: peak_and_bytes(command, bench.folder) for label, command in commands.items()}
    whole = runs["run"][1]
    line = runs["links"][1][len(whole):]
    for label in ("links", "links by many"):
        if runs[label][1] != whole + line or not line.startswith(b"rounds "):
            raise Failed(f"{name}: the bytes of `{label}` differ from those of `run`")
    times = rounds_of(commands, bench.rounds)
    peak = f"{runs['links'][0] / runs['run'][0]:.2f}" if runs["run"][0] else "-"
    return [name, line.split()[1].decode(), f"{ratio(times, 'links', 'run', 1):.2f}",
            f"{ratio(times, 'links by many', 'run by many', 0):.2f}", f"{ratio(times, 'links by many', 'links', 0):.2f}",
            f"{ratio(times, 'run by many', 'run', 0):.2f}", peak]


def measure_links(bench):
    """The table of `cloner links`, which keeps stations in step by their links, in rounds in place of windows."""
    headed("`cloner links`", ["workload", "rounds", "`links` to `run`, processor time", "with workers, wall time",
                              "workers to one, `links`", "workers to one, `run`", "`links` to `run`, peak memory"])
    for name in LINKED:
        printed(linked_row(bench, name))


def measure_watch(bench):
    """What watches cost that wait in vain: the clinic with as many as there may be, beside `cloner run`."""
    files = bench.files("clinic")
    watches = bench.folder / "watches.txt"
    lines = [f"watch base doctor wait 4096 fork w{i} set doctor servers 4\n" for i in range(MAX_WATCHES - 7)]
    watches.write_text("".join(lines))
    commands = {"run": [bench.cloner, "run", *files], "watch": [bench.cloner, "watch", *files, str(watches)]}
    if peak_and_bytes(commands["watch"], bench.folder)[1] != peak_and_bytes(commands["run"], bench.folder)[1]:
        raise Failed("the bytes of `watch` differ from those of `run`")
    times = rounds_of(commands, bench.rounds)
    headed("`cloner watch`: processor time", ["workload", "watches that wait in vain", "`watch` to `run`"])
    printed(["clinic", len(lines), f"{ratio(times, 'watch', 'run', 1):.2f}"])


def measure_start(bench):
    """How long the small example takes, beside a program that does nothing."""
    times = rounds_of({"small": bench.small, "true": ["/bin/true"]}, max(bench.rounds, 5) * 20)
    least = {label: min(time[0] for time in rounds) * 1e3 for label, rounds in times.items()}
    print(f"\n**Start**: `cloner run` of the small example {least['small']:.2f} ms, `true` {least['true']:.2f} ms "
          "(least wall time)")


def growth_row(bench, name, silent):
    """The messages of a run (None where it is silent), and the least processor time by program."""
    files = bench.files(name)
    commands = {"cloner": [bench.cloner, "run", *files]}
    messages = None
    if not silent:
        commands["plain"] = [bench.plain, *files]
        messages = counts_of(name, {label: peak_and_bytes(command, bench.folder)[1]
                                    for label, command in commands.items()})[1]
    times = rounds_of(commands, bench.rounds, 7 if silent else 0)
    return messages, {label: min(time[1] for time in rounds) for label, rounds in times.items()}


def measure_growth(bench, plotted):
    """The tables of growth, and their plot."""
    panels = []
    for kind, grown in workloads.GROWTH.items():
        silent = kind in workloads.SILENT
        cells = ["`cloner`, ms", "to the first row"] if silent else ["messages", "`cloner`, ns a message",
                                                                    "to the first row", "plain", "to the first row"]
        headed(f"Growth with the number of {kind}: least processor time" +
               (" of a run that ends at its limit, without texts" if silent else ""), ["number", *cells])
        lines, first = {}, None
        for name, (number, _) in grown.items():
            messages, times = growth_row(bench, name, silent)
            costs = {label: time * (1e3 if silent else 1e9 / messages) for label, time in times.items()}
            first = first or costs
            row = [f"{number:,}"] if silent else [f"{number:,}", f"{messages:,}"]
            for label, cost in costs.items():
                row += [f"{cost:.1f}", f"{cost / first[label]:.2f}"]
                lines.setdefault(label, []).append((number, cost / first[label]))
            printed(row)
        panels.append(plot.Panel("time of a run" if silent else "time a message", kind, lines))
    plotted.write_text(plot.svg(panels))
    print(f"\nThe plot is {plotted}; 1 is the first row of each table.")


def measure_simpy(bench):
    """The clinic without questions in SimPy, and in the other programs."""
    python = next((path for path in ("/usr/bin/python3", sys.executable) if begins([path, "-c", "import simpy"])), None)
    if not python:
        print("\nSimPy is not there (Debian: python3-simpy3), so it is not measured.")
        return
    headed("The clinic without questions, one run a clone", ["program", "messages", "microseconds a message"])
    said = {}
    for label, more in (("SimPy", []), ("SimPy, with texts", ["--trace"])):
        command = [python, "-B", HERE / "simpy_clinic.py", *more]
        out = subprocess.run(command, capture_output=True, check=True, text=True)
        said[label] = dict(word.split("=") for word in out.stdout.split())
        printed([label, said[label]["messages"], f"{1e6 / float(said[label]['messages_a_second']):.2f}"])
    empty = bench.folder / "empty.txt"
    empty.write_text("")
    files = [bench.files("clinic")[0], str(empty)]
    for label, command in (("plain", [bench.plain, *files]), ("`cloner run`", [bench.cloner, "run", *files])):
        output = peak_and_bytes(command, bench.folder)[1]
        messages = output.partition(b"report\n")[0].count(b"\n") - 1
        times = [seconds(command)[1] for _ in range(bench.rounds)]
        printed([f"{label}, with start and texts", messages, f"{min(times) / messages * 1e6:.2f}"])
    patients = int(said["SimPy"]["left"]) / 5
    print(f"\nSimPy's five runs: {patients:.0f} patients left a run, mean stay {said['SimPy']['mean_stay']} minutes.")


def main():
    """Measures the parts that are asked for."""
    chosen = arguments()
    parts = chosen.only or (["workloads"] if chosen.workloads else PARTS)
    with tempfile.TemporaryDirectory() as scratch:
        bench = Bench(chosen, Path(scratch))
        print(f"{os.cpu_count()} processors, load {os.getloadavg()[0]:.1f}, {chosen.rounds} rounds")
        if "workloads" in parts:
            measure_workloads(bench, chosen.workloads)
        if "solo" in parts:
            measure_solo(bench)
        if "stats" in parts:
            measure_stats(bench)
        if "links" in parts:
            measure_links(bench)
        if "watch" in parts:
            measure_watch(bench)
        if "start" in parts:
            measure_start(bench)
        if "growth" in parts:
            measure_growth(bench, chosen.plot)
        if "simpy" in parts:
            measure_simpy(bench)


if __name__ == "__main__":
    try:
        main()
    except (Failed, OSError, subprocess.CalledProcessError) as why:
        sys.exit(f"bench: {why}")
