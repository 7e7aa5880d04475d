"""Every command with bad input: one line, a status, and nothing half written."""
import os
import unittest

from samples import MODEL, SCRIPT, TRACE, Folder, ended

FOREIGN = b"\xff\xfe\xe9\n"


class BadInput(Folder):
    def setUp(self):
        super().setUp()
        self.model, self.script = self.file("model", MODEL), self.file("script", SCRIPT)
        self.trace, self.foreign = self.file("trace", TRACE), self.file("foreign", FOREIGN)
        self.none, self.page = os.path.join(self.folder, "none"), os.path.join(self.folder, "out.html")
        self.stand_in = self.file("cloner", "#!/bin/sh\nexit 9\n", 0o755)
        self.watches = self.file("watches", "watch base desk wait 1 fork third set desk servers 2\n")
        self.plan = self.file("plan", "desk servers 1..2\ngoal least cost\n")
        self.there = sorted(os.listdir(self.folder))

    def commands(self):
        """Returns each command with words that are right, and the places of its files."""
        study = [self.model, self.script]
        runs = ["--seeds", "1", "--bin", self.stand_in]
        return [(["summary", self.trace, "--model", self.model, "--script", self.script], (1, 3, 5)),
                (["plot", self.trace, "desk", "--model", self.model, "--output", self.page + ".svg"], (1, 4)),
                (["check", *study], (1, 2)), (["diagram", self.model], (1,)),
                (["replicate", *study, *runs, "--csv", self.page, "--watches", self.watches], (1, 2, 10)),
                (["report", *study, *runs, "-o", self.page, "--watches", self.watches], (1, 2, 10)),
                (["search", self.model, self.plan, *runs, "-o", self.page], (1, 2)),
                (["explain", *study, self.watches, "--trace", self.trace], (1, 2, 3, 5))]

    def refused(self, words):
        """Checks that a command ends with one line and a status, and leaves no file."""
        status, output, errors = ended(*words)
        self.assertIn(status, (2, 3), words)
        self.assertEqual((output, errors.count("\n")), ("", 1), (words, errors))
        self.assertTrue(errors.startswith("cloner-planning: "), errors)
        self.assertEqual(sorted(os.listdir(self.folder)), self.there, words)

    def test_files_that_are_not_there(self):
        for words, places in self.commands():
            for place in places:
                self.refused([*words[:place], self.none, *words[place + 1:]])

    def test_files_that_are_not_utf_8(self):
        for words, places in self.commands():
            for place in places:
                self.refused([*words[:place], self.foreign, *words[place + 1:]])

    def test_folders_in_place_of_files(self):
        for words, places in self.commands():
            for place in places:
                self.refused([*words[:place], self.folder, *words[place + 1:]])

    def test_a_trace_of_another_model(self):
        other = self.file("other", MODEL.replace('"desk"', '"till"'))
        self.there = sorted(os.listdir(self.folder))
        self.refused(["summary", self.trace, "--model", other])
        self.refused(["explain", self.model, self.script, self.watches, "--trace", self.model])
        short = self.file("other", MODEL.replace("horizon = 20", "horizon = 9"))
        self.refused(["summary", self.trace, "--model", short])

    def test_seeds_that_overlap(self):
        for words, _ in self.commands():
            if "--seeds" in words:
                place = words.index("--seeds") + 1
                self.refused([*words[:place], "1..3,2", *words[place + 1:]])

    def test_a_program_that_fails(self):
        for words, _ in self.commands():
            if "--seeds" in words:
                self.refused(words)


if __name__ == "__main__":
    unittest.main()
