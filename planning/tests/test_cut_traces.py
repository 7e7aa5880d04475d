"""Traces that were cut: what is there is shown, it is said, and the status is 3."""
import os
import unittest

from samples import BASE_TRACE, MODEL, SCRIPT, TRACE, Folder, ended

from cloner_planning.plot import NO_MATPLOTLIB

CUT = 3


class Cut(Folder):
    def setUp(self):
        super().setUp()
        self.model, self.script = self.file("model", MODEL), self.file("script", SCRIPT)

    def summary(self, trace, *words):
        """Returns status, output and notes of a summary of a trace on standard input."""
        return ended("summary", "-", "--model", self.model, *words, text=trace)

    def cuts(self):
        """Returns the beginnings of the trace that end with a line, and are not the whole."""
        lines = TRACE.splitlines(True)
        return ["".join(lines[:count]) for count in range(2, len(lines))]

    def test_every_cut_is_told(self):
        for trace in self.cuts()[::3] + self.cuts()[-1:]:
            status, output, notes = self.summary(trace)
            self.assertEqual(status, CUT, trace)
            self.assertIn("no report follows the traces", notes)
            self.assertIn("Servers\n", output)

    def test_a_whole_trace(self):
        status, _, notes = self.summary(TRACE, "--script", self.script)
        self.assertEqual((status, notes), (0, ""))

    def test_absent_branches_are_named(self):
        status, _, notes = self.summary(BASE_TRACE, "--script", self.script)
        self.assertEqual(status, CUT)
        self.assertIn("absent: fast\n", notes)
        other = self.file("other", SCRIPT + "fork slow from fast\n")
        status, _, notes = self.summary(TRACE, "--script", other)
        self.assertEqual((status, notes.count("\n")), (CUT, 1))
        self.assertIn("absent: slow\n", notes)

    def test_solo_writes_no_report(self):
        status, _, notes = self.summary(BASE_TRACE, "--script", self.script, "--solo")
        self.assertEqual((status, notes), (0, ""))

    def test_pictures(self):
        status, output, notes = ended("plot", "-", "desk", text=BASE_TRACE)
        if NO_MATPLOTLIB in notes:
            self.skipTest("no matplotlib")
        self.assertEqual(status, CUT)
        self.assertIn("<svg", output)
        self.assertIn("no report follows the traces", notes)
        self.assertEqual(ended("plot", "-", "desk", "--solo", text=BASE_TRACE)[0::2], (0, ""))
        # what follows a branch shows that it is whole
        self.assertEqual(ended("plot", "-", "desk", "base", text=BASE_TRACE + "clone fast\n")[0::2], (0, ""))
        self.assertEqual(ended("plot", "-", "desk", "base", text=BASE_TRACE)[0], CUT)

    def test_replications(self):
        program = self.file("cloner", "#!/bin/sh\ncat <<'END'\n" + BASE_TRACE + "END\n", 0o755)
        status, output, errors = ended("replicate", self.model, self.script, "--seeds", "1", "--bin", program)
        self.assertEqual((status, output), (CUT, ""))
        self.assertIn("seed 1: no report follows the traces", errors)
        self.assertEqual(errors.count("\n"), 1)
        self.assertEqual(sorted(os.listdir(self.folder)), ["cloner", "model", "script"])


if __name__ == "__main__":
    unittest.main()
