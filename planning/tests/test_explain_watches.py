"""explain: deliberate mistakes in a file of watches, with the error lines that cloner wrote for them, as text."""
import os
import tempfile
import unittest

from samples import ended

from explain_mistakes import MODEL, SCRIPT, spoiled
from cloner_planning import explain
from cloner_planning.errors import PlanningError
from cloner_planning.explain_tables import Tables, read_tables

WATCHES = """# A third clerk as soon as two wait
watch base desk wait 2 fork third set desk servers 3

watch third desk wait 1 fork fourth set desk servers 4
watch fast desk wait 0 fork slower set gate every 4 9
"""

# of each mistake: what is replaced in the watches by what, the error line, and what the explanation has
MISTAKES = [
    ("# A third", "# A th\u00efrd", "watches: refusal 2 at line 1", ["Column 7: the byte 0xc3", "also in comments"]),
    ("# A third", "A third", "watches: refusal 3 at line 1",
     ["Column 1: `A` begins no line: the first word is watch, or begins with #."]),
    ("watch base", "fork base", "watches: refusal 3 at line 2", ["`fork` begins no line"]),
    ("wait 2 fork", "wait fork", "watches: refusal 3 at line 2", ["Column 27: `third` is where `fork` belongs"]),
    ("wait 2", "waits 2", "watches: refusal 3 at line 2", ["Column 17: `waits` is where `wait` belongs"]),
    ("set desk servers 3", "", "watches: refusal 3 at line 2", ["After `third` `set` is missing"]),
    ("servers 3", "servers", "watches: refusal 3 at line 2",
     ["After `servers` the value A is missing", "fork NEW set TARGET servers A`"]),
    ("servers 3", "server 3", "watches: refusal 3 at line 2", ["`server` is no parameter", "mean `servers`?"]),
    ("servers 3", "servers 3 # third", "watches: refusal 3 at line 2", ["`#` is too much", "a line of its own"]),
    ("fork third", "fork Third", "watches: refusal 3 at line 2", ["`Third` is no name for NEW", "`third` would be"]),
    ("wait 2", "wait 02", "watches: refusal 4 at line 2", ["Column 22: `02` is no number: it has a leading zero"]),
    ("every 4 9", "every 4 +9", "watches: refusal 4 at line 5", ["`+9` is no number: a number has no sign"]),
    ("watch base", "watch bsae", "watch: refusal 3 at line 2",
     ["WATCHES:2: watch bsae", "mean `base`?", "The branches before this line: base, fast, two_clerks, brief."]),
    ("watch base", "watch fourth", "watch: refusal 3 at line 2",
     ["WATCHES:4: watch third desk wait 1 fork fourth set desk servers 4   (it is made here)"]),
    ("watch fast", "watch brief", "watch: refusal 12 at line 5", ["SCRIPT:9: end brief at 90   (its end)"]),
    ("fork fourth", "fork base", "watch: refusal 4 at line 4", ["`base` is there from the start"]),
    ("fork fourth", "fork fast", "watch: refusal 4 at line 4", ["SCRIPT:2: fork fast from base   (it is made here)"]),
    ("fork fourth", "fork third", "watch: refusal 4 at line 4", ["WATCHES:2:", "(it is made here)"]),
    ("fast desk", "fast deks", "watch: refusal 6 at line 5", ["MODEL:11: name = \"desk\"", "mean `desk`?"]),
    ("set gate", "set gaet", "watch: refusal 6 at line 5", ["MODEL:5: name = \"gate\"", "mean `gate`?"]),
    ("fast desk", "fast gate", "watch: refusal 7 at line 5",
     ["MODEL:6: kind = \"source\"", "`gate` is a source, and jobs wait at servers alone: desk."]),
    ("every 4 9", "room 9", "watch: refusal 7 at line 5", ["takes `every A B`", "`room` is taken by a server"]),
    ("every 4 9", "every 9 4", "watch: refusal 8 at line 5", ["mean `every 4 9`?"]),
    ("servers 3", "servers 30", "watch: refusal 8 at line 2", ["The range of `servers A`: 1 <= A <= 16"]),
]


class Folder(unittest.TestCase):
    """Tests with a model, a script and a file of watches."""

    def setUp(self):
        folder = tempfile.TemporaryDirectory()
        self.addCleanup(folder.cleanup)
        self.paths = {name: os.path.join(folder.name, name) for name in ("MODEL", "SCRIPT", "WATCHES")}
        self.tables = read_tables()
        self.write(MODEL=MODEL.encode(), SCRIPT=SCRIPT.encode(), WATCHES=WATCHES.encode())

    def write(self, **texts):
        """Writes files by their names."""
        for name, data in texts.items():
            with open(self.paths[name], "wb") as file:
                file.write(data)

    def explained(self, said, *names):
        """Returns the explanation of an error line, with short paths; by default all three files are named."""
        given = names or tuple(self.paths)
        files = explain.Files(*[self.paths[name] if name in given else None for name in self.paths])
        text = "\n".join(explain.explain(said, None, self.tables, files))
        for name, path in self.paths.items():
            text = text.replace(path, name)
        return text


class Mistakes(Folder):
    def test_each(self):
        for old, new, said, wanted in MISTAKES:
            with self.subTest(new=new):
                self.write(WATCHES=spoiled(WATCHES, old, new))
                text = self.explained("cloner: " + said)
                for part in wanted:
                    self.assertIn(part, text)
                self.assertNotIn("does not have this fault", text)

    def test_a_long_file(self):
        self.write(WATCHES=b"#" * 1_048_577)
        self.assertIn("has 1,048,577 bytes", self.explained("cloner: watches: refusal 1 at line 0"))

    def test_too_many(self):
        lines = "".join(f"watch base desk wait 1 fork w{number} set desk room 2\n" for number in range(256))
        self.write(WATCHES=lines.encode())
        self.assertIn("It is watch number 256", self.explained("cloner: watches: refusal 5 at line 256"))
        self.assertIn("4 branches of the script, `base` among them, and 253 watches are 257",
                      self.explained("cloner: watch: refusal 5 at line 253"))

    def test_a_full_list(self):
        self.assertIn("`base` has 256 sets", self.explained("cloner: watch: refusal 9 at line 2"))

    def test_watches_that_were_changed_since(self):
        for said in ["watches: refusal 2", "watches: refusal 3", "watches: refusal 4", "watch: refusal 3",
                     "watch: refusal 4", "watch: refusal 6", "watch: refusal 7", "watch: refusal 12"]:
            with self.subTest(said=said):
                self.assertIn("does not have this fault", self.explained(f"cloner: {said} at line 2"))
        self.assertIn("does not have this fault", self.explained("cloner: watch: refusal 3 at line 99"))

    def test_files_that_are_not_named(self):
        said = "cloner: watch: refusal 3 at line 2"
        self.assertIn("Give the files of the model, the script and the watches", self.explained(said, "MODEL"))
        self.assertIn("Give the script's file as well", self.explained(said, "MODEL", "WATCHES"))
        said = "cloner: watch: refusal 6 at line 2"
        self.assertIn("Give the model's file as well", self.explained(said, "SCRIPT", "WATCHES"))

    def test_no_such_refusal(self):
        for said in ["cloner: watches: refusal 6 at line 1", "cloner: watch: refusal 10 at line 1"]:
            with self.assertRaises(PlanningError):
                self.explained(said)

    def test_watches_that_cannot_be_read(self):
        os.remove(self.paths["WATCHES"])
        self.assertIn("There is no file WATCHES", self.explained("cloner: cannot read the watches"))

    def test_a_page_without_the_form(self):
        with self.assertRaises(PlanningError):
            Tables("nothing").watch_forms()


class Meanings(Folder):
    def described(self):
        """Returns what the entry script prints with nothing on standard input."""
        status, output, errors = ended("explain", *self.paths.values())
        self.assertEqual((status, errors), (0, ""))
        return output.replace(self.paths["WATCHES"], "WATCHES").splitlines()

    def test_each_watch(self):
        lines = self.described()
        self.assertEqual(lines[0], "WATCHES:2: watch base desk wait 2 fork third set desk servers 3")
        self.assertEqual(lines[1::2], [
            "  As soon as 2 jobs wait at `desk` in `base`: a branch `third` of it is made, with the change "
            "`desk servers 3` one lookahead (2) later.",
            "  As soon as a job waits at `desk` in `third` from its own change on: a branch `fourth` of it is made, "
            "with the change `desk servers 4` one lookahead (2) later.",
            "  As soon as `desk` handles a message in `fast`: a branch `slower` of it is made, with the change "
            "`gate every 4 9` one lookahead (2) later."])

    def test_what_is_no_watch(self):
        self.write(WATCHES=b"watch base desk wait two fork third set desk servers 3\nfork x from base\n")
        lines = self.described()
        self.assertEqual(lines[1], "  Column 22: `two` is no number: digits alone make a number.")
        self.assertIn("`fork` begins no line", lines[3])

    def test_a_refused_watch_has_its_meaning(self):
        self.write(WATCHES=spoiled(WATCHES, "watch base", "watch ghost"))
        text = self.explained("cloner: watch: refusal 3 at line 2")
        self.assertIn("As soon as 2 jobs wait at `desk` in `ghost`", text)


if __name__ == "__main__":
    unittest.main()
