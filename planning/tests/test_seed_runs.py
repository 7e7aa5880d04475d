"""Runs of seeds with the program itself: watches, classes, statistics in place of traces, and Dask."""
import importlib.util
import os
import subprocess
import unittest
import unittest.mock

from samples import PROGRAM, Folder, ended, example, needs_program

from cloner_planning import seed_runs
from cloner_planning.errors import PlanningError
from cloner_planning.replicate import plan_of
from cloner_planning.seed_pools import executor_of, run_all
from cloner_planning.seed_runs import run_seed, uses_stats
from cloner_planning.study_files import read_study
from cloner_planning.watches import parse_watches

CLINIC = (example("clinic.toml"), example("clinic.txt"))


def replicated(*words):
    """Returns the rows of the table of replications of the clinic, split, and those of its watches."""
    status, output, errors = ended("replicate", *CLINIC, "--jobs", "1", "--bin", PROGRAM or "cloner", *words)
    assert status == 0, errors
    figures, _, watches = output.partition("\nWatches\n")
    return ([line.split() for line in figures.split("\n")[3:] if line],
            [line.split() for line in watches.split("\n")[1:]])


class Options:
    """The options of a plan with all figures of the servers that `stats` has."""

    bin, executor, seeds, start, stop, over, by_class, against = PROGRAM, None, [7], 0, None, 0, False, "base"

    def __init__(self, figures, stations, branches):
        self.figures, self.stations, self.branches = figures, stations, branches


class Watches(unittest.TestCase):
    def test_a_file_of_watches(self):
        (found,) = parse_watches("# why\nwatch base desk wait 2 fork third set desk servers 3\n")
        self.assertEqual((found.line, found.clone, found.least, found.new, found.values), (2, "base", 2, "third", (3,)))
        for wrong in ("watch base desk wait x fork third set desk servers 3", "watch base desk wait 2 fork third",
                      "fork a from base", "watch base desk wait 2 fork third set desk service 3"):
            with self.assertRaisesRegex(PlanningError, "watches: line 1"):
                parse_watches(wrong)


@needs_program
class Program(Folder):
    def test_watches(self):
        words = ("--watches", example("clinic_watches.txt"), "--seeds", "1..2", "--stations", "doctor",
                 "--figures", "lost", "--branches", "rush,fourth,fifth,called", "--against", "parent")
        rows, watches = replicated(*words)
        self.assertEqual([row[2] for row in rows], ["rush", "fourth", "fifth", "called"])
        self.assertEqual([row[:4] for row in watches[:3]], [["fourth", "2", "of", "2"], ["fifth", "2", "of", "2"],
                                                            ["called", "2", "of", "2"]])
        # a watch that needs a line which is longer than the room
        path = self.file("watches", "watch base doctor wait 61 fork never set doctor servers 4\n")
        _, watches = replicated("--watches", path, "--seeds", "1", "--figures", "lost")
        self.assertEqual(watches[0], ["never", "0", "of", "1", "-", "-", "-"])

    def test_when_a_watch_came_due(self):
        files = read_study(*CLINIC, example("clinic_watches.txt"))
        options = Options(["lost"], ["doctor"], files.script.branches())
        plan = plan_of(options, files, None)
        with open(CLINIC[0], encoding="utf-8") as file:
            seed = [int(line.split("=")[1]) for line in file if line.startswith("seed")]
        dues = run_seed(plan, (seed or [0])[0]).dues
        self.assertEqual(dues, {"fourth": 3068, "fifth": 3394, "called": 6151})

    def test_what_came_of_each_watch(self):
        path = self.file("watches", "watch base doctor wait 5 fork fourth set doctor servers 4\n"
                                    "watch fourth doctor wait 50 fork fifth set doctor servers 5\n"
                                    "watch fifth doctor wait 1 fork sixth set doctor servers 6\n"
                                    "watch base doctor wait 6 fork none set doctor servers 4\n")
        trace = subprocess.run([PROGRAM, "watch", *CLINIC, path], stdout=subprocess.PIPE, check=True).stdout.decode()
        status, output, errors = ended("explain", *CLINIC, path, "--trace", "-", text=trace)
        lines = output.split("\n")[2::3]
        self.assertEqual((status, errors, len(lines)), (0, "", 4))
        self.assertRegex(lines[0], r"^  It came due at (\d+), and the change is at \d+\.$")
        self.assertRegex(lines[1], r"^  It never came due: the longest line at `doctor` in `fourth` was \d+, first at")
        self.assertIn("there is no branch `fifth`, since its own watch never came due", lines[2])
        self.assertIn("the longest line at `doctor` in `base` was 5, first at", lines[3])
        cut = "".join(trace.splitlines(True)[:-1])
        self.assertEqual(ended("explain", *CLINIC, path, "--trace", "-", text=cut)[0], 3)
        other = self.file("other", "watch base doctor wait 5 fork third set doctor servers 4\n")
        self.assertIn("which make no branch fourth", ended("explain", *CLINIC, other, "--trace", "-", text=trace)[2])
        self.assertEqual(ended("explain", *CLINIC, "--trace", "-", text=trace)[0], 2)

    def test_statistics_say_the_same_as_traces(self):
        files = read_study(*CLINIC)
        for figures, stations in ((["arrived", "lost", "done", "most"], None), (["wait", "wait_longest"], ["xray"])):
            figures = ["line_most" if name == "most" else name for name in figures]
            branches = ["base", "rush", "night"] if stations is None else ["base", "night"]
            options = Options(figures, stations, branches)
            plan = plan_of(options, files, None)
            self.assertTrue(uses_stats(plan))
            quick = run_seed(plan, 3).values
            with unittest.mock.patch.object(seed_runs, "uses_stats", lambda plan: False):
                whole = run_seed(plan, 3).values
            order = (lambda one: (one.branch, one.station, one.figure))
            self.assertEqual(sorted(quick, key=order), sorted(whole, key=order))
            self.assertTrue(quick)
        self.assertFalse(uses_stats(plan_of(Options(["wait"], ["doctor"], ["base"]), files, None)))
        self.assertFalse(uses_stats(plan_of(Options(["got"], ["exit"], ["base"]), files, None)))

    def test_classes(self):
        words = (example("emergency.toml"), example("emergency.txt"), "--seeds", "1", "--branches", "base",
                 "--stations", "doctors,home", "--figures", "lost,got", "--by-class", "--bin", PROGRAM)
        status, output, _ = ended("replicate", *words)
        self.assertEqual(status, 0)
        rows = [line.split() for line in output.split("\n")[3:] if line]
        for station in ("doctors", "home"):
            found = {row[2]: float(row[5]) for row in rows if row[0] == station}
            self.assertEqual(found["-"], sum(value for name, value in found.items() if name != "-"))
        csv = ended("replicate", *words, "--csv", "-")[1]
        self.assertEqual(csv.split("\n")[0], "seed,branch,station,class,figure,value")

    @unittest.skipUnless(importlib.util.find_spec("distributed"), "no distributed")
    def test_dask(self):
        from distributed import LocalCluster
        files = read_study(*CLINIC)
        plan = plan_of(Options(["lost", "got"], None, ["base", "rush"]), files, None)
        wanted = list(run_all(run_seed, plan, range(1, 9), 1))
        with LocalCluster(n_workers=2, threads_per_worker=1, dashboard_address=None) as cluster:
            with executor_of("dask:" + cluster.scheduler_address) as executor:
                found = []
                for seed, result in run_all(run_seed, plan, range(1, 9), 1, executor):
                    found.append((seed, result))
                    if seed == 1:  # a worker dies
                        os.kill(next(iter(cluster.workers.values())).process.pid, 9)
        self.assertEqual(found, wanted)

    def test_executors_that_are_not_there(self):
        for word, part in (("slurm", "it is dask:ADDRESS, or mpi"), ("dask:", "it is dask:ADDRESS")):
            with self.assertRaisesRegex(PlanningError, part), executor_of(word):
                pass


if __name__ == "__main__":
    unittest.main()
