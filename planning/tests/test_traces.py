"""The reader of traces: branches, journal, report, and what it refuses."""
import io
import os
import tempfile
import unittest

import samples  # noqa: F401  (puts the package on the path)
from cloner_planning.errors import PlanningError
from cloner_planning.traces import Trace, class_of, open_trace

BASE = """clone base
3 gate gate 0 tick sent=1
5 desk gate 1 job gate.0 busy=1 wait=0 done=0 lost=0
9 desk desk 0 done gate.0 busy=0 wait=0 done=1 lost=0
11 out desk 1 job gate.0 got=1 stay=8
"""
FAST = """clone fast
3 gate gate 0 tick sent=1
8 desk analyst 0 set service 2 2 busy=0 wait=0 done=0 lost=0
"""
REPORT = """report
gate copies=1 handled=2 alone=4
total copies=2 handled=8 alone=9
total handled=13 alone=17
"""
JOURNAL = """journal 2 3
# front 5
analyst main
fork fast from base
analyst main
# refused 11 front 5: set fast at 4 desk service 2 2
# front 20
looks 1
look main base desk front=5 clones=1 handled=0 shared=1
"""


def trace_of(text):
    return Trace(io.StringIO(text))


def read_all(trace):
    return [(name, list(lines)) for name, lines in trace.branches()]


class Reading(unittest.TestCase):
    def test_run_has_branches_in_order_and_then_the_report(self):
        trace = trace_of(BASE + FAST + REPORT)
        self.assertEqual(read_all(trace), [("base", BASE.splitlines(True)[1:]), ("fast", FAST.splitlines(True)[1:])])
        # a station may be called total: it has three figures, the sums have two
        self.assertEqual(trace.report, [("gate", 1, 2, 4), ("total", 2, 8, 9)])
        self.assertEqual(trace.total, (13, 17))
        self.assertEqual(trace.number, 12)
        self.assertEqual(trace.journal, [])

    def test_links_has_rounds_after_the_report(self):
        trace = trace_of(BASE + FAST + REPORT + "rounds 3\n")
        self.assertEqual([name for name, _ in read_all(trace)], ["base", "fast"])
        self.assertEqual((trace.total, trace.rounds), ((13, 17), 3))

    def test_solo_has_one_branch_and_no_report(self):
        trace = trace_of(BASE)
        self.assertEqual([name for name, _ in read_all(trace)], ["base"])
        self.assertEqual((trace.report, trace.total), ([], None))

    def test_live_has_a_journal_before_the_branches(self):
        trace = trace_of(JOURNAL + BASE + FAST + REPORT)
        self.assertEqual([name for name, _ in read_all(trace)], ["base", "fast"])
        self.assertEqual(trace.journal, JOURNAL.splitlines())
        self.assertEqual(trace.script_lines(), JOURNAL.splitlines()[1:7])

    def test_lines_that_the_caller_leaves_are_passed_over(self):
        self.assertEqual([name for name, _ in Trace(io.StringIO(BASE + FAST)).branches()], ["base", "fast"])
        firsts = [next(lines) for _, lines in Trace(io.StringIO(BASE + FAST)).branches()]
        self.assertEqual(firsts, ["3 gate gate 0 tick sent=1\n"] * 2)

    def test_a_branch_may_be_empty_and_lines_need_no_end(self):
        self.assertEqual(read_all(Trace(["clone base", "clone a", "3 gate gate 0 tick sent=1"])),
                         [("base", []), ("a", ["3 gate gate 0 tick sent=1"])])

    def test_the_line_number_follows_the_line(self):
        trace = trace_of(BASE + FAST)
        for name, lines in trace.branches():
            if name == "fast":
                next(lines)
                self.assertEqual(str(trace.fault("x")), "line 7 of the trace: x")

    def test_all_kinds_of_lines_are_lines_of_a_trace(self):
        lines = ["1 a b 0 job gate.0:4 passed=1\n", "1 a analyst 0 set weight 2 1 passed=1\r\n",
                 "1 a analyst 0 set room 0 busy=0 wait=0 done=0 lost=0\n", "1 x a 0 job gate.12 got=2 stay=0\n"]
        self.assertEqual(read_all(Trace(["clone base\n"] + lines)), [("base", lines)])


class Refusing(unittest.TestCase):
    def refused(self, text):
        with self.assertRaises(PlanningError) as caught:
            read_all(trace_of(text))
        self.assertNotIn("\n", str(caught.exception))
        return str(caught.exception)

    def test_an_empty_trace(self):
        self.assertIn("the trace is empty", self.refused(""))

    def test_a_text_that_is_no_trace(self):
        self.assertIn("line 1 of the trace", self.refused("lookahead = 1\n"))
        self.assertIn("no trace follows", self.refused(JOURNAL))

    def test_a_line_that_is_no_message(self):
        for line in ["", "hello", "8 desk gate", "x desk gate 1 job gate.0 passed=1", "5 desk gate 1 job gate passed=1",
                     "5 desk gate 1 job gate.0:5 passed=1", "5 desk gate 1 job gate.0 busy=1 wait=0 done=0",
                     "5 desk gate 1 job gate.0 busy=1 wait=0 done=0 lost=0 x", "5 desk gate 1 set servers busy=1",
                     "5" * 30 + " gate gate 0 tick sent=1"]:
            self.assertIn("line 6 of the trace: no line of a trace", self.refused(BASE + line + "\n"), line)

    def test_a_line_that_was_cut_off(self):
        self.assertIn("line 5 of the trace", self.refused(BASE[:-3]))

    def test_a_line_that_is_no_report(self):
        self.assertIn("line 7 of the trace: no line of a report", self.refused(BASE + "report\n9 desk copies\n"))
        self.assertIn("line 10 of the trace: no line of a report", self.refused(BASE + REPORT + BASE))
        self.assertIn("line 11 of the trace: no line", self.refused(BASE + REPORT + "rounds 3\nrounds 3\n"))
        self.assertIn("line 7 of the trace: no line of a report", self.refused(BASE + "report\nrounds 3\n"))

    def test_what_is_shown_of_a_line_is_short_and_printable(self):
        self.assertTrue(self.refused("\x00\x1b[2J" + "y" * 999).endswith("??[2J" + "y" * 55 + " .."))

    def test_a_file_that_cannot_be_read(self):
        with tempfile.TemporaryDirectory() as folder:
            for path in (folder, os.path.join(folder, "none")):
                with self.assertRaises(PlanningError):
                    open_trace(path)

    def test_a_file_that_can(self):
        with tempfile.TemporaryDirectory() as folder:
            path = os.path.join(folder, "trace")
            with open(path, "wb") as file:
                file.write(BASE.replace("\n", "\r\n").encode() + b"\xff\n")
            with open_trace(path) as lines, self.assertRaisesRegex(PlanningError, "line 6 of the trace"):
                read_all(Trace(lines))


class Words(unittest.TestCase):
    def test_classes(self):
        self.assertEqual([class_of(job) for job in ("gate.0", "gate.2", "gate.0:2", "a.17:4")], [1, 1, 2, 4])


if __name__ == "__main__":
    unittest.main()
