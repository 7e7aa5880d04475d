#!/usr/bin/python3
"""Compares the figures of the imaging department in `cloner` and in SimPy, each with random numbers of its own.

    planning/validation/compare_imaging.py [--seeds N] [--own-order] [--processes N]

Each program runs with N seeds: `cloner` with 1001 on, SimPy with 1 on. The figures of `cloner` are those of
`summary`. It prints a table with the mean of each figure and its 95 per cent interval, mean ± 1.96 s / sqrt N,
and whether the two intervals overlap. With --own-order, SimPy handles simultaneous events in its own order.
"""
import argparse
import functools
import math
import multiprocessing

import cloner_runs
import simpy_imaging
from simpy_imaging import mean

CLONER_SEEDS = 1001
SIMPY_SEEDS = 1
SERVERS = ["registration", "new_scanner", "old_scanner", "beds"]
# of each figure its name in simpy_imaging, and where `summary` has it: station, class, column
FIGURES = [
    ("patients through", "exit", "", "got"),
    ("mean stay, inpatients", "exit", "1", "stay_mean"),
    ("mean stay, outpatients", "exit", "2", "stay_mean"),
    *((f"mean wait, {server}", server, "", "wait_mean") for server in SERVERS),
    *((f"lost, {server}", server, "", "lost") for server in SERVERS),
    *((f"utilisation, {server}", server, "", "used_share") for server in SERVERS),
]


def cloner_figures(rows):
    """Returns the figures of a branch, out of its rows of `summary`, by their names."""
    return {name: float(rows[station, job_class][column]) for name, station, job_class, column in FIGURES}


def cloner_run(seed):
    """Returns the figures of one run of `cloner`."""
    model = cloner_runs.with_seed(cloner_runs.example("imaging.toml"), seed)
    return cloner_figures(cloner_runs.summary(model, cloner_runs.run(model))["base"])


def simpy_run(seed, own_order):
    """Returns the figures of one run of the SimPy model."""
    return simpy_imaging.figures(simpy_imaging.run(simpy_imaging.PythonWords(seed), own_order=own_order))


def interval(values):
    """Returns the mean of the runs, and half the width of its 95 per cent interval."""
    middle = mean(values)
    deviation = math.sqrt(sum((value - middle) ** 2 for value in values) / (len(values) - 1))
    return middle, 1.96 * deviation / math.sqrt(len(values))


def rows(ours, theirs):
    """Yields the rows of the table."""
    for name, *_ in FIGURES:
        (one, half), (other, other_half) = (interval([run[name] for run in runs]) for runs in (ours, theirs))
        verdict = "overlap" if abs(one - other) <= half + other_half else "apart"
        yield f"| {name} | {one:.2f} ± {half:.2f} | {other:.2f} ± {other_half:.2f} | {verdict} |"


def main():
    """Runs both programs with all seeds and prints the table."""
    parser = argparse.ArgumentParser(description="Figures of the imaging department in cloner and in SimPy.")
    parser.add_argument("--seeds", type=int, default=200)
    parser.add_argument("--own-order", action="store_true", help="simultaneous events in SimPy's own order")
    parser.add_argument("--processes", type=int, default=2)
    chosen = parser.parse_args()
    cloner_runs.program()
    simpy_runs = functools.partial(simpy_run, own_order=chosen.own_order)
    with multiprocessing.Pool(chosen.processes) as pool:
        ours = pool.map(cloner_run, range(CLONER_SEEDS, CLONER_SEEDS + chosen.seeds), chunksize=4)
        theirs = pool.map(simpy_runs, range(SIMPY_SEEDS, SIMPY_SEEDS + chosen.seeds), chunksize=4)
    print("| Figure | `cloner` | SimPy | Intervals |\n|---|---:|---:|---|")
    print("\n".join(rows(ours, theirs)))


if __name__ == "__main__":
    main()
