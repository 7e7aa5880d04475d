#!/usr/bin/env python3
"""Compares waits after arrivals that look Poisson with exact mean waits of exponential and of geometric times.

    planning/validation/poisson_arrivals.py [--seeds N] [--jobs N]

The model is that of `ModelBuilder.poisson`: in each unit of time a job comes with a chance of 1 in the mean. One server
takes 5 to 13 units for each. The exact waits are those of Pollaczek and Khinchine, and the same for discrete time.
"""
import argparse
import math
import os
import sys

sys.path.insert(0, os.path.join(os.path.dirname(os.path.abspath(__file__)), "..", "src"))

from cloner_planning import ModelBuilder, ScriptBuilder, Study, Way  # noqa: E402  (the path comes first)

MEANS = (12, 15, 20)
SERVICE = (5, 13)
WARM_UP, HORIZON = 2_000, 60_000


def model_of(mean):
    """Returns the model with this mean time between jobs."""
    model = ModelBuilder(horizon=HORIZON, lookahead=1, limit=65_536)
    model.poisson("door", mean, Way("till", 1))
    model.server("till", 1, 4096, SERVICE, [Way("home", 1)])
    model.sink("home")
    return model


def exact(mean):
    """Returns the exact mean waits after exponential and after geometric times between jobs."""
    services = range(SERVICE[0], SERVICE[1] + 1)
    first = sum(services) / len(services)
    second = sum(service ** 2 for service in services) / len(services)
    idle = 2 * (1 - first / mean)
    return second / mean / idle, (second - first) / mean / idle


def main():
    """Prints a row of the table in docs/VALIDATION.md for each mean."""
    parser = argparse.ArgumentParser(description=__doc__, formatter_class=argparse.RawDescriptionHelpFormatter)
    parser.add_argument("--seeds", type=int, default=64)
    parser.add_argument("--jobs", type=int)
    told = parser.parse_args()
    for mean in MEANS:
        rows = Study(model_of(mean), ScriptBuilder()).run(
            range(1, told.seeds + 1), told.jobs, figures=["wait"], stations=["till"], start=WARM_UP)
        waits = rows.values("base", "till", "wait_mean")
        middle = sum(waits) / len(waits)
        deviation = math.sqrt(sum((wait - middle) ** 2 for wait in waits) / (len(waits) - 1))
        exponential, geometric = exact(mean)
        print(f"| {mean} | {9 / mean:.2f} | {exponential:.2f} | {geometric:.2f} | "
              f"{middle:.2f} ± {1.96 * deviation / math.sqrt(len(waits)):.2f} |", flush=True)


if __name__ == "__main__":
    main()
