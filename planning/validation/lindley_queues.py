#!/usr/bin/env python3
"""Compares the mean wait at single queues with what Lindley's equation says of it.

    planning/validation/lindley_queues.py [--seeds N ..] [--processes N]

A job's wait is max(0, W + S - A). W is the wait and S the service of the job before; A is the time between the
two. A step of `Line` applies this to the whole distribution of W, so no random number is drawn. The first job has
W = 0. The mean over 30,000 jobs is the expected value of a run that begins empty. The stationary mean is that of the
distribution which no longer changes. Waits of LONGEST or more are neglected.

It prints a table, and ends with status 1 if an expected value is outside an interval of the runs.
"""
import argparse
import math
import multiprocessing
import sys
from itertools import accumulate

import cloner_runs

QUEUES = [((1, 5), (1, 4)), ((2, 9), (3, 7)), ((1, 10), (1, 9))]
JOBS = 30000
LONGEST = 1000
STILL = 1e-13
# the 97.5 per cent points of Student's t by the number of runs; any other number takes 1.96
STUDENT = {4: 3.182, 6: 2.571, 8: 2.365, 10: 2.262, 12: 2.201, 16: 2.131, 20: 2.093, 24: 2.069, 32: 2.040, 64: 1.998}

MODEL = """lookahead = 1
horizon = {horizon}
seed = {seed}
limit = 65536
[[station]]
name = "gate"
kind = "source"
every = [{every[0]}, {every[1]}]
jobs = {jobs}
link = [{{ to = "desk", delay = 1 }}]
[[station]]
name = "desk"
kind = "server"
servers = 1
room = 4096
service = [{service[0]}, {service[1]}]
link = [{{ to = "exit", delay = 1 }}]
[[station]]
name = "exit"
kind = "sink"
"""


class Line:
    """The distribution of the wait of one job, from wait 0 of the first one."""

    def __init__(self, every, service):
        self.every, self.service = every, service
        self.chances = [1.0] + [0.0] * (LONGEST - 1)

    def step(self):
        """Goes on to the next job. Returns how much the chances changed."""
        low, high = self.service
        served = spread(self.chances + [0.0] * high, low, high)
        low, high = self.every
        left = spread(served[::-1] + [0.0] * high, low, high)[::-1]
        chances = [sum(left[: high + 1])] + left[high + 1 : high + LONGEST]
        change = sum(abs(new - old) for new, old in zip(chances, self.chances))
        self.chances = chances
        return change

    def mean(self):
        """Returns the mean wait."""
        return sum(wait * chance for wait, chance in enumerate(self.chances))


def spread(chances, low, high):
    """Returns the distribution of X + U. U is uniform from low to high, and X has the given distribution."""
    sums = [0.0] * (high + 1) + list(accumulate(chances))
    return [(one - other) / (high - low + 1) for one, other in zip(sums[high - low + 1 :], sums)][: len(chances)]


def expected(queue):
    """Returns the mean wait of the first 30,000 jobs of a queue, and that of the stationary distribution."""
    line = Line(*queue)
    total, steps = 0.0, 1
    while steps < JOBS and line.step() > STILL:
        total += line.mean()
        steps += 1
    return (total + (JOBS - steps) * line.mean()) / JOBS, line.mean()


def mean_wait(lines):
    """Returns the mean wait at the desk. All jobs are served, so it is their time in line divided by their number."""
    area = since = waiting = done = 0
    for line in lines:
        words = line.split()
        if words[1] == "desk":
            area += waiting * (int(words[0]) - since)
            since, waiting, done = int(words[0]), int(words[-3][5:]), int(words[-2][5:])
    if done != JOBS:
        raise ValueError(f"{done} jobs were served, not {JOBS}")
    return area / done


def measured(case):
    """Returns the mean wait in one run of `cloner`."""
    (every, service), seed = case
    horizon = JOBS * max(sum(every), sum(service)) * 11 // 20 + 10000
    model = MODEL.format(every=every, service=service, seed=seed, jobs=JOBS, horizon=horizon)
    return mean_wait(cloner_runs.traces(cloner_runs.run(model))["base"])


def interval(values):
    """Returns the mean of some runs, and half the width of its 95 per cent interval."""
    count = len(values)
    mean = sum(values) / count
    deviation = math.sqrt(sum((value - mean) ** 2 for value in values) / (count - 1))
    return mean, STUDENT.get(count, 1.96) * deviation / math.sqrt(count)


def arguments():
    """Returns the options of this script."""
    parser = argparse.ArgumentParser(description="Mean waits at single queues, by Lindley's equation and by cloner.")
    parser.add_argument("--seeds", type=int, nargs="+", default=[8, 64], metavar="N", help="a column for each number")
    parser.add_argument("--processes", type=int, default=2)
    return parser.parse_args()


def row(queue, exact, waits, numbers):
    """Returns the row of a queue, and whether its expected value is inside all intervals."""
    (every, service), (mean, stationary) = queue, exact
    found = [interval(waits[:number]) for number in numbers]
    inside = all(abs(middle - mean) <= half for middle, half in found)
    shown = " | ".join(f"{middle:.2f} ± {half:.2f}" for middle, half in found)
    return (
        f"| {every[0]} to {every[1]} | {service[0]} to {service[1]} | {sum(service) / sum(every):.3f} "
        f"| {stationary:.3f} | {mean:.3f} | {shown} | {'yes' if inside else 'no'} |"
    ), inside


def main():
    """Compares the three queues; returns 1 if an expected value is outside an interval."""
    chosen = arguments()
    cloner_runs.program()
    seeds = range(1, max(chosen.seeds) + 1)
    with multiprocessing.Pool(chosen.processes) as pool:
        exact = pool.map(expected, QUEUES, chunksize=1)
        waits = pool.map(measured, [(queue, seed) for queue in QUEUES for seed in seeds], chunksize=1)
    columns = " | ".join(f"{number} runs" for number in chosen.seeds)
    print(f"| Time between jobs | Service | Load | Stationary | Expected | {columns} | Inside |")
    print(f"|---|---|---:|---:|---:|{'---:|' * len(chosen.seeds)}---|")
    all_inside = True
    for number, queue in enumerate(QUEUES):
        text, inside = row(queue, exact[number], waits[number * len(seeds) :][: len(seeds)], chosen.seeds)
        print(text)
        all_inside = all_inside and inside
    return 0 if all_inside else 1


if __name__ == "__main__":
    sys.exit(main())
