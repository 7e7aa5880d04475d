"""run: the program's words, output and status, and the explanation of what it refuses. And hints at recipes."""
import os
import signal
import subprocess
import time
import unittest

from samples import (
    ENTRY, ENVIRONMENT, MODEL, PROGRAM, SCRIPT, TRACE, Folder, ended, example, needs_program, wait_for)

from cloner_planning.explain_tables import read_tables
from cloner_planning.explain_words import faults_of_words, files_of, mode_of

# cloner's stand-in: prints its words, and ends as the environment says
STAND_IN = """#!/bin/sh
echo "$@"
[ -z "$SAID" ] || echo "$SAID" >&2
exit ${STATUS:-0}
"""


class Words(unittest.TestCase):
    def setUp(self):
        self.tables = read_tables()

    def test_known_forms(self):
        for words in ("run m s", "run m s --workers 4", "--workers=16 live m s", "solo m s --clone a", "gen 999999",
                      "save m s --clone a --until 0", "resume m s", "watch m s w", "run -- -m -s", "links m -"):
            self.assertEqual(faults_of_words(words.split(), self.tables), [], words)

    def test_which_word_is_wrong(self):
        for words, part in (("", "There is no command"), ("rum m s", "Did you mean `run`?"),
                            ("run m", "After `m` SCRIPT is missing"), ("run m s w", "`w` is too much"),
                            ("watch m s", "WATCHES is missing"), ("run m s --worker 2", "Did you mean `--workers`?"),
                            ("run m s --workers", "After `--workers` N is missing"),
                            ("run m s --workers 17", "`--workers 17` is wrong: the greatest is 16"),
                            ("run m s --workers 0", "`--workers 0` is wrong: the least is 1"),
                            ("run m s --workers 2 --workers 3", "`--workers` is there twice"),
                            ("solo m s --workers 2 --clone a", "`--workers` is no option of `solo`"),
                            ("solo m s", "`--clone NAME` is missing"), ("solo m s --clone A", "`A` is no name"),
                            ("save m s --clone a --until 1.5", "`--until 1.5` is wrong: a time or value is a whole"),
                            ("gen 0", "`0` is wrong: the least is 1"), ("gen 1000000", "the greatest is 999,999"),
                            ("--help", "is no option of cloner"), ("run m s -x", "`-x` is no option")):
            self.assertIn(part, " ".join(faults_of_words(words.split(), self.tables)), words)

    def test_files(self):
        self.assertEqual(files_of("watch --workers 2 m s w".split(), self.tables),
                         {"MODEL": "m", "SCRIPT": "s", "WATCHES": "w"})
        self.assertEqual(files_of("resume m s".split(), self.tables), {"MODEL": "m", "SNAPSHOT": "s"})
        self.assertEqual(mode_of(["--clone", "run", "solo", "m"], self.tables), "solo")


class Runs(Folder):
    def setUp(self):
        super().setUp()
        self.model, self.script = self.file("model", MODEL), self.file("script", SCRIPT)
        self.program = self.file("cloner", STAND_IN, 0o755)

    def run_with(self, *words, said="", status=0):
        """Returns status, output and error output of a run of the stand-in."""
        path = self.folder + os.pathsep + os.environ["PATH"]
        return ended("run", *words, environment={"PATH": path, "SAID": said, "STATUS": str(status)})

    def test_the_same_words(self):
        self.assertEqual(self.run_with("gen", "7"), (0, "gen 7\n", ""))
        self.assertEqual(self.run_with(self.model, self.script), (0, f"run {self.model} {self.script}\n", ""))
        self.assertEqual(self.run_with("cloner", "stats", "m", "s", "--workers", "2")[1], "stats m s --workers 2\n")
        self.assertEqual(self.run_with(self.program, "--", "run", "-m")[1], "-- run -m\n")

    def test_what_is_refused_is_explained(self):
        self.file("model", MODEL.replace("servers = 1", "servers = 17"))
        said = "cloner: model: refusal 8 at station 2 key servers"
        status, output, errors = self.run_with("run", self.model, self.script, said=said, status=4)
        self.assertEqual((status, output), (4, f"run {self.model} {self.script}\n"))
        self.assertEqual(errors.split("\n")[0], said)
        self.assertIn(f"  {self.model}:12: servers = 17\n", errors)

    def test_a_wrong_command_line(self):
        status, _, errors = self.run_with("solo", "m", "s", said="usage: cloner run ..", status=2)
        self.assertEqual(status, 2)
        self.assertIn("  `--clone NAME` is missing.\n", errors)
        self.assertIn("  The form: `cloner solo MODEL SCRIPT --clone NAME`.\n", errors)

    def test_other_endings(self):
        self.assertEqual(self.run_with("run", "m", "s", said="something else", status=9)[::2], (9, "something else\n"))
        self.assertEqual(ended("run", "cloner_of_none", "run", "m", "s")[0], 127)
        self.assertEqual(ended("run", "--help")[0], 0)
        self.file("cloner", "#!/bin/sh\nkill -9 $$\n", 0o755)
        self.assertEqual(self.run_with("run", "m", "s")[0], 137)

    def test_the_program_ends_with_the_command(self):
        place = os.path.join(self.folder, "id")
        self.file("cloner", f"#!/bin/sh\necho $$ > {place}\nexec sleep 60\n", 0o755)
        process = subprocess.Popen([*ENTRY, "run", self.program, "gen", "1"], env=ENVIRONMENT)
        self.addCleanup(process.kill)
        wait_for(lambda: os.path.exists(place) and os.path.getsize(place))
        time.sleep(1)  # the command knows the process by then
        process.send_signal(signal.SIGTERM)
        self.assertEqual(process.wait(30), 143)
        with open(place, encoding="ascii") as file, self.assertRaises(ProcessLookupError):
            os.kill(int(file.read()), 0)

    @needs_program
    def test_the_program_itself(self):
        self.assertEqual(ended("run", PROGRAM, "run", self.model, self.script), (0, TRACE, ""))
        for change, status, parts in (
                (("servers = 1", "servers = 0"), 4, ["something that closes and opens again", "docs/PLANNING.md"]),
                (("servers = 1", "servers = 20"), 4, ["write 2 servers of 10 and 10", "more than 16 beds"]),
                (("every = [3, 3]", 'every = "exponential(12)"'), 4, ["arrivals by a Poisson process"]),
                (("service = [4, 4]", 'service = "uniform(2, 6)"'), 4, ["`service = [2, 6]`"]),
                (("service = [4, 4]", 'service = "exponential(4)"'), 4, ["times with a longer tail"])):
            model = self.file("changed", MODEL.replace(*change))
            found = ended("run", PROGRAM, "run", model, self.script)
            self.assertEqual(found[:2], (status, ""))
            for part in parts:
                self.assertIn(part, found[2])
        for script, status in (("set desk at 9 servers 3\n", 5), ("set desk at 9 desk servers 3\n", 6),
                               ("fork more from desk\n", 6)):
            found = ended("run", PROGRAM, "run", self.model, self.file("other", script))
            self.assertEqual(found[0], status)
            self.assertIn("`desk` is a station of the model, and here the name of a branch belongs", found[2])
        for servers, part in ((0, "opens again"), (40, "write 3 servers of 14 and 13 and 13")):
            found = ended("run", PROGRAM, self.model, self.file("other", f"set base at 9 desk servers {servers}\n"))
            self.assertEqual(found[0], 6)
            self.assertIn(part, found[2])
        found = ended("run", PROGRAM, "solo", self.model, self.script, "--clone", "desk")
        self.assertIn("`desk` is a station of the model", found[2])
        self.assertEqual(ended("run", PROGRAM, "rum", self.model, self.script)[0], 2)

    @needs_program
    def test_the_example_of_planning(self):
        self.assertEqual(ended("run", PROGRAM, "stats", example("clinic.toml"), example("clinic.txt"))[0], 0)


if __name__ == "__main__":
    unittest.main()
