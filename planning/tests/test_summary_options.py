"""summary: groups, census, units, order, JSON, and reading no further than is wanted."""
import io
import json
import os
import unittest

from samples import BASE_TRACE, FAST_TRACE, MODEL, REPORT, TRACE, Folder, ended, model_text

from cloner_planning.census import Occupancy
from cloner_planning.progress import telling, watched
from cloner_planning.trace_sections import lines_of
from cloner_planning.units import Unit, by_clock

# two desks in parallel, worked out by hand: waits of 0 and 3 at left, of 1 at right
PAIR = model_text(("gate", "source", {"left": 1, "right": 1}), ("left", "server", {"out": 1}, "servers = 1"),
                  ("right", "server", {"out": 1}, "servers = 1"), ("out", "sink", {}), horizon=20)
PAIR_TRACE = """clone base
0 left gate 0 job gate.0 busy=1 wait=0 done=0 lost=0
1 left gate 1 job gate.1 busy=1 wait=1 done=0 lost=0
1 right gate 2 job gate.2 busy=1 wait=0 done=0 lost=0
2 right gate 3 job gate.3 busy=1 wait=1 done=0 lost=0
3 right right 0 done gate.2 busy=1 wait=0 done=1 lost=0
4 left left 0 done gate.0 busy=1 wait=0 done=1 lost=0
"""
# a delay that holds jobs for 3 and 5, between a gate and an exit, with links of 1 and 2
WALK = """lookahead = 1
horizon = 20
[[station]]
name = "gate"
kind = "source"
every = [2, 2]
jobs = 2
link = [{ to = "walk", delay = 1 }]
[[station]]
name = "walk"
kind = "delay"
hold = [3, 5]
link = [{ to = "out", delay = 2 }]
[[station]]
name = "out"
kind = "sink"
"""
WALK_TRACE = """clone base
2 gate gate 0 tick sent=1
3 walk gate 1 job gate.0 passed=1
4 gate gate 2 tick sent=2
5 walk gate 3 job gate.1 passed=2
8 out walk 0 job gate.0 got=1 stay=6
12 out walk 1 job gate.1 got=2 stay=14
report
total handled=6 alone=6
"""


class Options(Folder):
    def setUp(self):
        super().setUp()
        self.model = self.file("model", MODEL)

    def rows(self, text, *words, model=None):
        """Returns the rows of the JSON of a trace."""
        model = self.file("other", model) if model else self.model
        status, output, errors = ended("summary", "-", "--model", model, "--json", *words, text=text)
        self.assertEqual((status, errors), (0, ""))
        return json.loads(output)

    def test_json_has_the_rows_of_the_csv(self):
        rows = self.rows(TRACE)
        self.assertEqual([(row["branch"], row.get("station"), row["kind"]) for row in rows], [
            ("base", "desk", "server"), ("base", "out", "sink"), ("base", None, "branch"),
            ("fast", "desk", "server"), ("fast", "out", "sink"), ("fast", None, "branch")])
        self.assertEqual((rows[0]["wait_mean"], rows[1]["stay_mean"], rows[2]["made"]), (0.5, 8.5, 2))

    def test_groups(self):
        row = [row for row in self.rows(PAIR_TRACE + REPORT, "--group", "desks=left,right", model=PAIR)
               if row["kind"] == "group"][0]
        wanted = {"station": "desks", "arrived": 4, "begun": 4, "done": 2, "waiting": 0, "serving": 2, "wait_mean": 1.0,
                  "wait_median": 0, "wait_longest": 3, "over_share": 50.0, "line_mean": 0.2, "busy_mean": 1.95,
                  "used_share": 97.5}
        self.assertEqual({key: row[key] for key in wanted}, wanted)
        for word, part in (("desks=left,none", "no server none"), ("left=left,right", "there is a server of this name"),
                           ("desks", "is no group like")):
            status, output, errors = ended("summary", "-", "--group", word, "--model", self.file("pair", PAIR),
                                           text=PAIR_TRACE + REPORT)
            self.assertEqual((status, output, errors.count("\n")), (2, "", 1))
            self.assertIn(part, errors)

    def test_census(self):
        rows = self.rows(WALK_TRACE, "--census", "--every", "10", model=WALK)
        (walk,) = [row for row in rows if row["kind"] == "delay"]
        # gate.0 is there from 3 to 6, gate.1 from 5 to 10
        self.assertEqual({key: walk[key] for key in ("arrived", "waiting", "mean", "most")},
                         {"arrived": 2, "waiting": 0, "mean": 0.4, "most": 2})
        census = [(row["from"], row["to"], row["mean"], row["most"]) for row in rows if row["kind"] == "census"]
        # in the network from 2 to 8 and from 4 to 12
        self.assertEqual(census, [(0, 10, 1.2, 2), (10, 20, 0.2, 1)])
        output = ended("summary", "-", "--census", "--model", self.file("walk", WALK), text=WALK_TRACE)[1]
        self.assertIn("Delays\nbranch station came inside mean most\nbase   walk       2      0 0.40    2\n", output)
        self.assertIn("Census\nbranch from to mean most\nbase      0 20 0.70    2\n", output)

    def test_units(self):
        output = ended("summary", "-", "--unit", "min=2", "--clock", "23:55", "--model", self.model, text=TRACE)[1]
        self.assertIn("Servers, times in min\n", output)
        row = [line.split() for line in output.split("\n") if line.startswith("base   out")][0]
        self.assertEqual(row, ["base", "out", "2", "4.25", "4.50"])
        self.assertIn("base   1d 0:05    2", output)
        self.assertEqual([by_clock(time, Unit("min", 10, 300)) for time in (0, 25, 11400, 14400)],
                         ["5:00", "5:02", "1d 0:00", "1d 5:00"])
        for words, part in ((["--clock", "5:00"], "--clock needs --unit"), (["--unit", "min"], "is no unit"),
                            (["--unit", "min=1", "--clock", "25:00"], "no time of the day"),
                            (["--every", "5"], "--every needs --census")):
            status, output, errors = ended("summary", "-", *words, text=TRACE)
            self.assertEqual((status, output, errors.count("\n")), (2, "", 1))
            self.assertIn(part, errors)

    def test_sort_and_top(self):
        def branches(*words):
            output = ended("summary", "-", "--model", self.model, "--stations", "out", *words, text=TRACE)[1]
            return [line.split()[0] for line in output.split("\n")[2:] if line]
        self.assertEqual(branches("--sort", "stay"), ["base", "fast"])
        self.assertEqual(branches("--sort", "stay_mean", "--top", "1"), ["base"])
        slower = TRACE.replace("stay=17", "stay=9")
        output = ended("summary", "-", "--model", self.model, "--stations", "out", "--sort", "stay", text=slower)[1]
        self.assertEqual([line.split()[0] for line in output.split("\n")[2:] if line], ["fast", "base"])
        errors = ended("summary", "-", "--sort", "x", "--model", self.model, text=TRACE)[2]
        self.assertIn("there is no such figure", errors)

    def test_nothing_is_read_after_the_last_wanted_branch(self):
        path = self.file("trace", BASE_TRACE + FAST_TRACE + "clone third\nnonsense\n")
        words = ("summary", path, "--model", self.model, "--branches")
        self.assertEqual(ended(*words, "fast")[0::2], (0, ""))
        self.assertEqual(ended(*words, "base")[1], ended("summary", "-", *words[2:], "base", text=TRACE)[1])
        self.assertEqual(ended(*words, "third")[0], 2)
        status, _, errors = ended(*words, "ghost")
        self.assertEqual(status, 2)
        self.assertEqual(errors, "cloner-planning: there is no branch ghost; there are base, fast, third\n")
        # a branch at whose end the trace was cut
        cut = self.file("cut", BASE_TRACE + FAST_TRACE)
        self.assertEqual([ended("summary", cut, *words[2:], name)[0] for name in ("base", "fast")], [0, 3])


class Parts(unittest.TestCase):
    def test_progress_of_a_long_file(self):
        output = io.StringIO()
        lines = ["x" * 9 + "\n"] * 400_001
        self.assertEqual(sum(1 for _ in telling(lines, 4_000_010, output)), 400_001)
        self.assertEqual(output.getvalue().split("\r")[1:4],
                         [f"{percent} % of 4 MB read" for percent in (0, 50, 100)])
        self.assertIs(watched(lines, "-", output), lines)

    def test_occupancy(self):
        place = Occupancy()
        for time, more in ((5, 1), (2, 2), (5, -1), (8, -2)):
            place.add(time, more)
        place.close()
        self.assertEqual(place.stretch(0, 10)[2:], (1.2, 2))
        self.assertEqual(place.stretch(3, 4)[2:], (2.0, 2))
        self.assertEqual(place.stretch(8, 9)[2:], (0.0, 0))
        self.assertEqual(place.stretch(4, 4)[2:], (None, None))

    def test_lines(self):
        for text in ("", "a", "a\n", "a\nb", "\n\n"):
            self.assertEqual("".join(lines_of(text.encode())), text)
            self.assertEqual(lines_of(text.encode()), text.splitlines(True))


class Following(Folder):
    """Branches that follow the first one have the figures that they have alone."""

    def test_every_branch_alone(self):
        model = self.file("model", MODEL)
        twin = BASE_TRACE.replace("base", "twin")
        for trace in (BASE_TRACE + FAST_TRACE, FAST_TRACE + BASE_TRACE, BASE_TRACE + twin):
            both = json.loads(ended("summary", "-", "--solo", "--json", "--model", model, text=trace)[1])
            for part in trace.split("clone ")[1:]:
                alone = json.loads(ended("summary", "-", "--solo", "--json", "--model", model, text="clone " + part)[1])
                self.assertEqual([row for row in both if row["branch"] == part.split("\n")[0]], alone)


if __name__ == "__main__":
    unittest.main()
