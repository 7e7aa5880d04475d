"""search: plans of a grid, their costs and order, and a comparison with each plan run alone by `solo`."""
import csv
import itertools
import json
import os
import subprocess
import unittest

from samples import MODEL, PROGRAM, Folder, ended, model_text, needs_program

from cloner_planning.errors import PlanningError
from cloner_planning.models import parse_model
from cloner_planning.script_lines import Lines
from cloner_planning.search import script_of
from cloner_planning.search_plan import Bound, Figure, Reader, read_search_plan

DESKS = model_text(("gate", "source", {"desk": 1}, "every = [1, 3]"), ("desk", "server", {"hall": 1}),
                   ("hall", "server", {"out": 1}, "servers = 1", "service = [1, 3]"), ("out", "sink", {}), horizon=600)
PLAN = """# which desks?
desk servers 1..3
hall room 2 9
gate every 1 4
price desk 10
price hall 5
hour 60
from 100
goal least cost with desk p90 <= 9 and hall lost <= 3
"""


def read(text, model=DESKS):
    """Returns the plan that a text says."""
    return Reader(Lines("plan", text.encode()), parse_model(model)).read()


class Plans(unittest.TestCase):
    def test_a_plan(self):
        plan = read(PLAN)
        self.assertEqual([(one.station, one.name, one.choices) for one in plan.parameters], [
            ("desk", "servers", [(1,), (2,), (3,)]), ("hall", "room", [(2,), (9,)]), ("gate", "every", [(1, 4)])])
        self.assertEqual(plan.bounds, [Bound(Figure("desk", "wait_90"), True, 9.0),
                                       Bound(Figure("hall", "lost"), True, 3.0)])
        self.assertEqual(len(list(plan.choices())), 6)
        # 2 servers for 100 and then 3 for 500 units, and one server for 600, an hour having 60
        self.assertAlmostEqual(plan.cost(((3,), (2,), (1, 4)), parse_model(DESKS)), (1700 * 10 + 600 * 5) / 60)

    def test_other_forms(self):
        plan = read("desk service 2 5 | 3 6\ndesk room 1 4..6\ngoal least out stay with hall used% >= 50.5\n")
        self.assertEqual([one.choices for one in plan.parameters], [[(2, 5), (3, 6)], [(1,), (4,), (5,), (6,)]])
        self.assertEqual((plan.least, plan.bounds[0]), (Figure("out", "stay_mean"),
                                                        Bound(Figure("hall", "used_share"), False, 50.5)))

    def test_the_script(self):
        plan = read("desk servers 1..2\nhall room 3\nfrom 9\ngoal least cost\n")
        self.assertEqual(script_of(plan, list(plan.choices())),
                         "fork plan1 from base\nset plan1 at 9 desk servers 2\nset plan1 at 9 hall room 3\n"
                         "set base at 9 desk servers 1\nset base at 9 hall room 3\n")

    def test_what_is_no_plan(self):
        goal = "goal least cost\n"
        for text, part in (
                ("desk servers 1..3\n", "one goal"), (goal, "one goal"), ("desk servers 0\n" + goal, "1 to 16"),
                ("desk servers 3..x\n" + goal, "line 1: 3..x is no number"), ("x servers 1\n", "no station x"),
                ("out servers 1\n", "does not take servers"), ("desk service 5 2\n", "no pair of times"),
                ("desk servers 1\ndesk servers 2\n", "line 2: desk servers is there twice"),
                ("price out 3\n", "no server out"), ("hour 0\n", "an hour has"), ("from 600\n", "before the"),
                ("goal most cost\n", "a goal is"), ("goal least cost with desk p90 < 3\n", "no bound like"),
                ("goal least cost with desk stay <= 3\n", "desk has no figure stay"), ("hello\n", "it is `")):
            with self.assertRaisesRegex(PlanningError, part, msg=text):
                read(text)


class Files(Folder):
    def test_too_many_plans(self):
        path = self.file("plan", "desk room 0..4095\nhall room 0..99\ngoal least cost\n")
        with self.assertRaisesRegex(PlanningError, "these are 409,600 plans"):
            read_search_plan(path, parse_model(DESKS))


@needs_program
class Searches(Folder):
    def search(self, model, plan, *words):
        """Returns status, output, errors and the rows of plans.csv of a search."""
        folder = os.path.join(self.folder, "found")
        status, output, errors = ended("search", self.file("model", model), self.file("plan", plan), "--bin", PROGRAM,
                                       "--jobs", "1", "-o", folder, *words)
        path = os.path.join(folder, "plans.csv")
        rows = []
        if os.path.exists(path):
            with open(path, encoding="utf-8", newline="") as file:
                rows = list(csv.DictReader(file))
        return status, output, errors, rows

    def alone(self, seed, desk, hall):
        """Returns the figures of one plan by `solo`: p90 at the desk, and the lost at the hall."""
        model = self.file("one", f"seed = {seed}\n" + DESKS)
        script = self.file("sets", f"set base at 100 desk servers {desk}\nset base at 100 hall room {hall}\n"
                                   "set base at 100 gate every 1 4\n")
        trace = subprocess.run([PROGRAM, "solo", model, script, "--clone", "base"], stdout=subprocess.PIPE, check=True)
        rows = json.loads(ended("summary", "-", "--solo", "--json", "--model", model, text=trace.stdout.decode())[1])
        found = {row["station"]: row for row in rows if "station" in row}
        return found["desk"].get("wait_90"), found["hall"]["lost"]

    def test_the_same_as_each_plan_alone(self):
        status, output, _, rows = self.search(DESKS, PLAN, "--seeds", "3..4")
        self.assertEqual(len(rows), 6)
        tried = []
        for number, (desk, hall) in enumerate(itertools.product((1, 2, 3), (2, 9)), 1):
            figures = [self.alone(seed, desk, hall) for seed in (3, 4)]
            means = [sum(values) / 2 for values in zip(*figures)]
            cost = (10 * (200 + 500 * desk) + 5 * 600) / 60
            broken = (means[0] > 9) + (means[1] > 3)
            kept = sum(p90 <= 9 and lost <= 3 for p90, lost in figures)
            tried.append((broken, cost, number, [f"{value:.4f}" for value in means], f"{kept} of 2"))
        tried.sort()
        self.assertEqual([(row["plan"], row["cost"], [row["desk wait_90"], row["hall lost"]], row["kept"])
                          for row in rows], [(str(number), f"{cost:.4f}", means, kept)
                                             for _, cost, number, means, kept in tried])
        self.assertEqual(status, 0 if tried[0][0] == 0 else 1)
        self.assertIn("6 plans, 2 seeds", output)
        with open(os.path.join(self.folder, "found", "best.txt"), encoding="utf-8") as file:
            self.assertIn(f"set base at 100 desk servers {rows[0]['desk servers']}\n", file.read())

    def test_more_than_256_plans(self):
        model = MODEL.replace("jobs = 2", "jobs = 5")
        status, output, _, rows = self.search(model, "desk room 0..299\ngoal least desk lost\n", "--seeds", "1",
                                              "--top", "2")
        self.assertEqual((status, len(rows), len(output.split("\n"))), (0, 300, 6))
        self.assertEqual(sorted(os.listdir(os.path.join(self.folder, "found"))),
                         ["best.txt", "plans.csv", "script_1.txt", "script_2.txt"])
        self.assertEqual(rows[-1]["desk room"], "0")

    def test_no_plan_keeps_the_bounds(self):
        status, _, errors, rows = self.search(DESKS, "desk servers 1 2\ngoal least cost with out got >= 99999\n",
                                              "--seeds", "1")
        self.assertEqual((status, len(rows), rows[0]["kept"]), (1, 2, "0 of 1"))
        self.assertIn("no plan keeps all bounds", errors)

    def test_bad_input_leaves_nothing(self):
        for plan, words in (("desk servers x\n", ["--seeds", "1"]), (PLAN, ["--seeds", "1,1"]),
                            (PLAN, ["--seeds", "1", "--executor", "none"])):
            status, output, errors, rows = self.search(DESKS, plan, *words)
            self.assertEqual((status, output, errors.count("\n"), rows), (2, "", 1, []))
        self.assertFalse(os.path.exists(os.path.join(self.folder, "found")))


if __name__ == "__main__":
    unittest.main()
