#!/usr/bin/python3
"""Compares runs of `cloner` with those of the SimPy model that draws the same random numbers.

    planning/validation/replay_imaging.py [--seeds N] [--processes N]

Each branch of examples/imaging.txt is one run of the SimPy model with the decisions that reach the branch. Lines
are those of the traces. Figures are those of compare_imaging.py: `summary` reads them from the trace of `cloner`,
SimPy gathers them while it runs. It prints a table, and ends with status 1 if anything differs.
"""
import argparse
import multiprocessing
import sys
from itertools import zip_longest

import cloner_runs
import simpy_imaging
from compare_imaging import cloner_figures


def decisions(script):
    """Returns the sets of each branch, as (time, station, parameter, values), in the order of the branch's list."""
    found = {"base": []}
    for words in map(str.split, script.splitlines()):
        if words[:1] == ["fork"]:
            found[words[1]] = list(found[words[3]])
        elif words[:1] == ["set"]:
            found[words[1]].append((int(words[3]), words[4], words[5], tuple(map(int, words[6:]))))
    return found


def compare(seed):
    """Returns for each branch the lines and figures that were compared with this seed, and how many differ."""
    script = cloner_runs.example("imaging.txt")
    model = cloner_runs.with_seed(cloner_runs.example("imaging.toml"), seed)
    output = cloner_runs.run(model, script)
    summed, listed, found = cloner_runs.summary(model, output), decisions(script), {}
    for branch, lines in cloner_runs.traces(output).items():
        other = simpy_imaging.run(simpy_imaging.ClonerWords(seed), listed[branch], trace=True)
        differ = [one != two for one, two in zip_longest(lines, map(str.rstrip, other.lines))]
        ours, theirs = cloner_figures(summed[branch]), simpy_imaging.figures(other)
        unlike = [f"{ours[name]:.4f}" != f"{theirs[name]:.4f}" for name in ours]
        found[branch] = (len(differ), sum(differ), len(unlike), sum(unlike))
    return found


def main():
    """Compares all branches with all seeds. Returns 1 if anything differs."""
    parser = argparse.ArgumentParser(description="Runs of cloner and of the SimPy model with the same random numbers.")
    parser.add_argument("--seeds", type=int, default=10)
    parser.add_argument("--processes", type=int, default=2)
    chosen = parser.parse_args()
    cloner_runs.program()
    with multiprocessing.Pool(chosen.processes) as pool:
        runs = pool.map(compare, range(1, chosen.seeds + 1), chunksize=1)
    rows = {branch: [sum(column) for column in zip(*(run[branch] for run in runs))] for branch in runs[0]}
    rows["all"] = [sum(column) for column in zip(*rows.values())]
    print("| Branch | Lines compared | differ | Figures compared | differ |\n|---|---:|---:|---:|---:|")
    for branch, counts in rows.items():
        print(f"| {branch} | {' | '.join(f'{count:,}' for count in counts)} |")
    return 1 if rows["all"][1] or rows["all"][3] else 0


if __name__ == "__main__":
    sys.exit(main())
