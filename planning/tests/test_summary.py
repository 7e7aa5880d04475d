"""The summary of small traces whose figures are worked out by hand."""
import csv
import io
import os
import subprocess
import tempfile
import unittest
from contextlib import redirect_stderr, redirect_stdout

from samples import PROGRAM, example, needs_program

from cloner_planning.command_line import main
from cloner_planning.station_figures import waits_of


MODEL = """lookahead = 1
horizon = 20
[[station]]
name = "gate"
kind = "source"
every = [1, 1]
jobs = 4
link = [{ to = "desk", delay = 1 }]
[[station]]
name = "desk"
kind = "server"
servers = 1
room = 2
service = [3, 9]
link = [{ to = "out", delay = 1 }, { to = "desk", delay = 1 }]
[[station]]
name = "spare"
kind = "server"
servers = 2
room = 2
service = [3, 9]
link = [{ to = "out", delay = 1 }]
[[station]]
name = "out"
kind = "sink"
"""

# One server; at 6 it gets two more, at 8 it loses them, and the services under way go on. gate.3 finds no room. gate.0
# and gate.1 come twice. Waits: gate.0 0, gate.1 2 to 6 = 4, gate.2 3 to 6 = 3, gate.0 again 0, gate.1 again
# 15 to 18 = 3.
ROSTER = """clone base
0 gate gate 0 tick sent=1
1 gate gate 2 tick sent=2
1 desk gate 1 job gate.0 busy=1 wait=0 done=0 lost=0
2 gate gate 4 tick sent=3
2 desk gate 3 job gate.1 busy=1 wait=1 done=0 lost=0
3 gate gate 6 tick sent=4
3 desk gate 5 job gate.2 busy=1 wait=2 done=0 lost=0
4 desk gate 7 job gate.3 busy=1 wait=2 done=0 lost=1
6 desk analyst 0 set servers 3 busy=3 wait=0 done=0 lost=1
8 desk analyst 1 set servers 1 busy=3 wait=0 done=0 lost=1
9 desk desk 1 done gate.1 busy=2 wait=0 done=1 lost=1
10 desk desk 0 done gate.0 busy=1 wait=0 done=2 lost=1
12 desk desk 2 done gate.2 busy=0 wait=0 done=3 lost=1
13 out desk 5 job gate.2 got=1 stay=11
14 desk desk 4 job gate.0 busy=1 wait=0 done=3 lost=1
15 desk desk 3 job gate.1 busy=1 wait=1 done=3 lost=1
18 desk desk 6 done gate.0 busy=1 wait=0 done=4 lost=1
19 out desk 7 job gate.0 got=2 stay=30
"""

# The example of service by class in docs/FORMATS_MODEL.md, to its end. By class: high.0 0, high.1 6 to 8 = 2,
# high.2 8 to 12 = 4, low.0 5 to 16 = 11. By arrival it would be low.0 3, high.1 6, high.2 8.
CLASS_MODEL = "format = 2\n" + MODEL.replace("room = 2", 'room = 9\norder = "class"').replace("= 20", "= 34")
BY_CLASS = """clone base
4 desk high 1 job high.0:1 busy=1 wait=0 done=0 lost=0
5 desk low 1 job low.0:2 busy=1 wait=1 done=0 lost=0
6 desk high 3 job high.1:1 busy=1 wait=2 done=0 lost=0
8 desk high 5 job high.2:1 busy=1 wait=3 done=0 lost=0
8 desk desk 0 done high.0:1 busy=1 wait=2 done=1 lost=0
9 out desk 1 job high.0:1 got=1 stay=6
12 desk desk 2 done high.1:1 busy=1 wait=1 done=2 lost=0
13 out desk 3 job high.1:1 got=2 stay=14
16 desk desk 4 done high.2:1 busy=1 wait=0 done=3 lost=0
17 out desk 5 job high.2:1 got=3 stay=24
20 desk desk 6 done low.0:2 busy=0 wait=0 done=4 lost=0
21 out desk 7 job low.0:2 got=4 stay=41
"""

BRIEF = """clone brief
0 gate gate 0 tick sent=1
1 desk gate 1 job gate.0 busy=1 wait=0 done=0 lost=0
2 desk gate 3 job gate.1 busy=1 wait=1 done=0 lost=0
"""
BRIEF_SCRIPT = "fork brief from base\nend brief at 5\n"
REPORT = """report
gate copies=1 handled=1 alone=1
desk copies=1 handled=1 alone=1
out copies=1 handled=1 alone=1
total handled=3 alone=3
"""


class Case(unittest.TestCase):
    """Runs the command on texts."""

    def setUp(self):
        self.folder = tempfile.TemporaryDirectory()
        self.addCleanup(self.folder.cleanup)

    def file(self, name, text):
        path = os.path.join(self.folder.name, name)
        with open(path, "w", encoding="utf-8", newline="\n") as file:
            file.write(text)
        return path

    def call(self, *words):
        """Returns the status, the output and the notes of a command."""
        output, notes = io.StringIO(), io.StringIO()
        with redirect_stdout(output), redirect_stderr(notes):
            status = main(["summary", *words])
        return status, output.getvalue(), notes.getvalue()

    def rows(self, trace, *words, model=MODEL, script=None):
        """Returns the rows of the CSV, by branch, station and class."""
        words = [self.file("trace", trace), "--csv", *words]
        words += ["--model", self.file("model", model)] if model else []
        words += ["--script", self.file("script", script)] if script else []
        words += [] if "\nreport\n" in trace else ["--solo"]
        status, output, self.notes = self.call(*words)
        self.assertEqual(status, 0, self.notes)
        return {(row["branch"], row["station"], row["class"]): row for row in csv.DictReader(io.StringIO(output))}

    def check(self, row, **figures):
        for key, value in figures.items():
            self.assertEqual(row[key.strip("_")], str(value), key)


class Servers(Case):
    def test_a_whole_branch(self):
        row = self.rows(ROSTER, "--over", "3")["base", "desk", ""]
        self.check(row, kind="server", from_=0, to=20, arrived=6, lost=1, begun=5, done=4, waiting=0, serving=1)
        # waits 0 0 3 3 4: mean 10/5; ranks 2.5 -> 3rd, 4.5 -> 5th, 4.95 -> 5th; only the 4 is above 3
        self.check(row, wait_mean="2.0000", wait_median=3, wait_90=4, wait_99=4, wait_longest=4)
        self.check(row, over=3, over_share="20.0000")
        # in line: 2-3 one, 3-6 two, 15-18 one: 10 in 20
        self.check(row, line_mean="0.5000", line_most=2)
        # busy: 1-6 one, 6-9 three, 9-10 two, 10-12 one, 14-20 one: 5 + 9 + 2 + 2 + 6 = 24 in 20
        # servers: 0-6 one, 6-8 three, 8-20 one: 6 + 6 + 12 = 24
        self.check(row, busy_mean="1.2000", used_share="100.0000")

    def test_a_span_within(self):
        row = self.rows(ROSTER, "--from", "5", "--to", "16")["base", "desk", ""]
        # in the span gate.1 and gate.2 begin, with their whole waits 4 and 3, and gate.0 again;
        # gate.0 and gate.1 arrive again
        self.check(row, from_=5, to=16, arrived=2, lost=0, begun=3, done=3, waiting=1, serving=1)
        self.check(row, wait_mean="2.3333", wait_median=3, wait_90=4, wait_99=4, wait_longest=4)
        self.check(row, over=0, over_share="66.6667")
        # in line: 5-6 two, 15-16 one: 3 in 11
        self.check(row, line_mean="0.2727", line_most=2)
        # busy: 5-6 one, 6-9 three, 9-10 two, 10-12 one, 14-16 one: 1 + 9 + 2 + 2 + 2 = 16 in 11
        # servers: 5-6 one, 6-8 three, 8-16 one: 1 + 6 + 8 = 15
        self.check(row, busy_mean="1.4545", used_share="106.6667")

    def test_a_span_in_which_nothing_happens(self):
        row = self.rows(ROSTER, "--from", "7", "--to", "8")["base", "desk", ""]
        self.check(row, arrived=0, begun=0, done=0, waiting=0, serving=3, wait_mean="", wait_longest="", over_share="",
                   line_mean="0.0000", line_most=0, busy_mean="3.0000", used_share="100.0000")

    def test_a_server_that_no_job_reaches_is_there_with_its_model(self):
        rows = self.rows(ROSTER)
        self.check(rows["base", "spare", ""], arrived=0, begun=0, wait_mean="", line_mean="0.0000",
                   busy_mean="0.0000", used_share="0.0000")
        self.assertEqual(list(rows), [("base", name, "") for name in ("desk", "spare", "out", "")])

    def test_without_a_model(self):
        rows = self.rows(ROSTER, model=None)
        # the last message is at 19: in line 10 in 19, busy 23 in 19
        self.check(rows["base", "desk", ""], to=19, wait_mean="2.0000", line_mean="0.5263", busy_mean="1.2105",
                   used_share="")
        self.assertNotIn(("base", "spare", ""), rows)
        self.assertIn("without --model the span goes to the last message, at 19", self.notes)
        self.assertNotIn("classes", self.notes)


class Classes(Case):
    def test_the_order_of_service_is_the_models(self):
        row = self.rows(BY_CLASS, model=CLASS_MODEL)["base", "desk", ""]
        # waits 0 2 4 11: mean 17/4; ranks 2, 3.6 -> 4th, 3.96 -> 4th; in line 5-6 one, 6-12 two, 12-16 one: 17 in 34
        self.check(row, begun=4, wait_mean="4.2500", wait_median=2, wait_90=11, wait_99=11, wait_longest=11,
                   over_share="75.0000", line_mean="0.5000", line_most=3)
        self.assertEqual(self.notes, "")

    def test_rows_by_class(self):
        rows = self.rows(BY_CLASS, "--by-class", "--over", "4", model=CLASS_MODEL)
        # class 1: waits 0 2 4; class 2: wait 11
        self.check(rows["base", "desk", "1"], arrived=3, lost=0, begun=3, done=3, waiting=0, serving=0,
                   wait_mean="2.0000", wait_median=2, wait_90=4, wait_longest=4, over_share="0.0000",
                   line_mean="", busy_mean="")
        self.check(rows["base", "desk", "2"], arrived=1, begun=1, done=1, wait_mean="11.0000", over_share="100.0000")
        self.check(rows["base", "desk", ""], arrived=4, begun=4, wait_mean="4.2500", over_share="25.0000")
        # times in the network: 6, 14 - 6 = 8 and 24 - 14 = 10 of class 1, 41 - 24 = 17 of class 2
        self.check(rows["base", "out", "1"], got=3, stay_mean="8.0000", stay_longest=10)
        self.check(rows["base", "out", "2"], got=1, stay_mean="17.0000", stay_longest=17)
        self.check(rows["base", "out", ""], got=4, stay_mean="10.2500", stay_longest=17)
        self.assertEqual([key[2] for key in rows if key[1] == "desk"], ["", "1", "2"])

    def test_rows_by_class_at_a_time_when_jobs_wait(self):
        rows = self.rows(BY_CLASS, "--by-class", "--from", "7", "--to", "9", model=CLASS_MODEL)
        # at 8 high.2 comes and high.1 begins; low.0 and high.2 wait at 9
        self.check(rows["base", "desk", "1"], arrived=1, begun=1, done=1, waiting=1, serving=1, wait_mean="2.0000")
        self.check(rows["base", "desk", "2"], arrived=0, begun=0, done=0, waiting=1, serving=0, wait_mean="")

    def test_waits_that_need_the_model_are_left_out_without_it(self):
        rows = self.rows(BY_CLASS, "--by-class", model=None)
        self.assertIn("jobs have classes", self.notes)
        self.assertIn("not served by arrival at desk", self.notes)
        self.check(rows["base", "desk", ""], arrived=4, begun=4, done=4, wait_mean="", wait_longest="", over_share="",
                   line_most=3)
        self.check(rows["base", "desk", "1"], arrived=3, begun="", done=3, waiting="", wait_mean="")

    def test_a_model_of_another_order_is_noticed(self):
        model = self.file("m", CLASS_MODEL.replace('"class"', '"arrival"'))
        status, output, notes = self.call(self.file("t", BY_CLASS), "--model", model)
        self.assertEqual((status, output), (2, ""))
        self.assertIn("not of this model: in base, desk serves high.1:1 before its turn", notes)


class SinksAndBranches(Case):
    def test_times_in_the_network(self):
        self.check(self.rows(ROSTER)["base", "out", ""], kind="sink", got=2, stay_mean="15.0000", stay_longest=19)
        # after 13 only the job of 30 - 11 = 19
        self.check(self.rows(ROSTER, "--from", "14")["base", "out", ""], got=1, stay_mean="19.0000", stay_longest=19)
        self.check(self.rows(ROSTER, "--to", "13")["base", "out", ""], got=0, stay_mean="", stay_longest="")

    def test_who_is_still_inside(self):
        self.check(self.rows(ROSTER)["base", "", ""], kind="branch", made=4, got=2, lost=1, inside=1)
        # at 5 four were made, one of them was lost; --from takes nothing away
        self.check(self.rows(ROSTER, "--from", "4", "--to", "5")["base", "", ""], made=4, got=0, lost=1, inside=3)
        self.check(self.rows(ROSTER, "--from", "15")["base", "", ""], made=4, got=2, lost=1, inside=1)

    def test_the_end_of_a_branch_comes_from_the_script(self):
        row = self.rows(ROSTER + BRIEF, script=BRIEF_SCRIPT)["brief", "desk", ""]
        # to 5: busy 1-5, in line 2-5
        self.check(row, to=5, busy_mean="0.8000", line_mean="0.6000", waiting=1, serving=1)
        row = self.rows(ROSTER + BRIEF)["brief", "desk", ""]
        # without the script to 20: busy 1-20, in line 2-20
        self.check(row, to=20, busy_mean="0.9500", line_mean="0.9000")

    def test_a_branch_that_ended_before_the_span(self):
        rows = self.rows(ROSTER + BRIEF, "--from", "6", script=BRIEF_SCRIPT)
        self.check(rows["brief", "desk", ""], from_=6, to=6, arrived=0, waiting=1, line_mean="", line_most="",
                   busy_mean="", used_share="")
        self.assertIn("ended before --from 6, so nothing is counted: brief", self.notes)

    def test_the_end_of_a_branch_comes_from_the_journal_of_live(self):
        journal = ("journal 2 2\n# front 3\nanalyst main\nfork brief from base\nanalyst main\nend brief at 5\n"
                   "# front 20\nlooks 0\n")
        rows = self.rows(journal + ROSTER + BRIEF + REPORT)
        self.check(rows["brief", "desk", ""], to=5, busy_mean="0.8000")
        self.check(rows["base", "desk", ""], to=20, busy_mean="1.2000")

    def test_stations_of_one_branch_have_rows_in_all(self):
        rows = self.rows(ROSTER + BRIEF, model=None)
        self.check(rows["brief", "out", ""], got=0, stay_mean="")


class Tables(Case):
    def test_the_tables(self):
        status, output, notes = self.call(self.file("t", ROSTER + REPORT), "--model", self.file("m", MODEL),
                                          "--over", "3")
        self.assertEqual((status, notes), (0, ""))
        self.assertEqual(output, """\
Servers
branch station arrived lost begun done waiting serving wait p50 p90 p99 longest   >3% line most busy  used%
base   desk          6    1     5    4       0       1 2.00   3   4   4       4 20.00 0.50    2 1.20 100.00
base   spare         0    0     0    0       0       0    -   -   -   -       -     - 0.00    0 0.00   0.00

Sinks
branch station got  stay longest
base   out       2 15.00      19

Branches, from time 0 on
branch to made left lost inside
base   20    4    2    1      1
""")

    def test_chosen_stations_and_branches(self):
        words = [self.file("t", ROSTER + REPORT), "--model", self.file("m", MODEL), "--csv"]
        _, output, _ = self.call(*words, "--stations", "out,spare", "--branches", "base")
        rows = [(row["branch"], row["station"]) for row in csv.DictReader(io.StringIO(output))]
        self.assertEqual(rows, [("base", "spare"), ("base", "out")])
        for words_of_names in (["--stations", "gate"], ["--branches", "other"]):
            status, _, notes = self.call(*words, *words_of_names)
            self.assertEqual((status, notes.count("\n")), (2, 1))
            self.assertIn("there is no", notes)

    def test_longest_names_fit(self):
        trace = ROSTER.replace("desk", "d" * 16).replace("base", "b" * 16)
        _, output, _ = self.call(self.file("t", trace))
        self.assertLessEqual(max(map(len, output.splitlines())), 130)


class Refusals(Case):
    def refused(self, trace, *words, model=MODEL):
        words = [self.file("t", trace), "--solo", *words] + (["--model", self.file("m", model)] if model else [])
        status, output, notes = self.call(*words)
        self.assertEqual((status, output), (2, ""))
        lines = notes.splitlines()
        self.assertTrue(all(line.startswith("cloner-planning: ") for line in lines), notes)
        return lines[-1]

    def test_spans(self):
        self.assertIn("--from 9 is not below --to 9", self.refused(ROSTER, "--from", "9", "--to", "9"))
        self.assertIn("--from 20 is not below 20", self.refused(ROSTER, "--from", "20"))
        self.assertIn("--from 19 is not below 19", self.refused(ROSTER, "--from", "19", model=None))
        self.assertIn("is no whole number", self.refused(ROSTER, "--to", "-1"))
        self.assertIn("is no whole number", self.refused(ROSTER, "--over", "2.5"))
        self.rows(ROSTER, "--to", "21")
        self.assertIn("--to 21 is beyond 20", self.notes)

    def test_traces(self):
        self.assertIn("the trace is empty", self.refused(""))
        self.assertIn("line 1 of the trace", self.refused(MODEL))
        self.assertIn("line 3 of the trace: no line of a trace",
                      self.refused("clone base\n0 gate gate 0 tick sent=1\nxyz\n"))
        self.assertIn("no message after time 0", self.refused("clone base\n", model=None))
        self.rows("clone base\n")

    def test_lines_that_do_not_follow(self):
        lines = ROSTER.splitlines(True)
        self.assertIn("line 5 of the trace: the counts", self.refused("".join(lines[:3] + lines[4:])))
        self.assertIn("line 19 of the trace: the counts of out", self.refused(ROSTER.replace("got=2", "got=3")))
        self.assertIn("line 20 of the trace: the time is below 19",
                      self.refused(ROSTER + "3 gate gate 8 tick sent=5\n"))

    def test_other_models_and_scripts(self):
        self.assertIn("which has no server desk", self.refused(ROSTER, model=MODEL.replace("desk", "till")))
        self.assertIn("which has no sink out", self.refused(ROSTER, model=MODEL.replace('"out"', '"exit"')))
        self.assertIn("a message at 19, and the horizon is 19",
                      self.refused(ROSTER, model=MODEL.replace("= 20", "= 19")))
        self.assertIn("makes no branch brief", self.refused(ROSTER + BRIEF, "--script", self.file("s", "")))
        self.assertIn("brief ends at 2 there, and has a message at 2",
                      self.refused(ROSTER + BRIEF, "--script", self.file("s", BRIEF_SCRIPT.replace("5", "2"))))

    def test_words(self):
        for words in [[], ["summary"], ["sum"], ["summary", "t", "--form", "3"], ["summary", "t", "u"]]:
            notes = io.StringIO()
            with redirect_stderr(notes):
                self.assertEqual(main(words), 2)
            self.assertEqual(len(notes.getvalue().splitlines()), 1)


class Percentiles(unittest.TestCase):
    def test_nearest_rank(self):
        # of the values 1 to 100 the 50th, 90th and 99th; of 1 to 10 the 5th, 9th and 10th
        self.assertEqual(waits_of({wait: 1 for wait in range(1, 101)}, 0)[1:5], (50, 90, 99, 100))
        self.assertEqual(waits_of({wait: 1 for wait in range(1, 11)}, 0)[1:5], (5, 9, 10, 10))
        self.assertEqual(waits_of({0: 99, 7: 1}, 0), (0.07, 0, 0, 0, 7, 1.0))
        self.assertIsNone(waits_of({}, 0))


@needs_program
class Clinic(Case):
    def test_the_clinic(self):
        model, script = (example("clinic" + end) for end in (".toml", ".txt"))
        trace = subprocess.run([PROGRAM, "run", model, script], check=True, stdout=subprocess.PIPE,
                               universal_newlines=True).stdout
        with open(model, encoding="utf-8") as file:
            rows = self.rows(trace, model=file.read())
        xray = rows["base", "xray", ""]
        self.check(xray, arrived=406, begun=406, wait_longest=35, line_most=3)
        # the proved statistics of this server: the waits add up to 1459, the numbers in the station over time to 6316
        self.assertEqual(round(float(xray["wait_mean"]) * 406), 1459)
        self.assertEqual(round((float(xray["line_mean"]) + float(xray["busy_mean"])) * 10000), 6316)
        self.assertEqual(round(float(rows["night", "doctor", ""]["wait_mean"]), 2), 131.81)


if __name__ == "__main__":
    unittest.main()
