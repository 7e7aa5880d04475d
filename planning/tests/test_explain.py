"""explain: deliberate mistakes in a model and a script, with the error lines that cloner wrote for them, as text."""
import contextlib
import io
import os
import re
import tempfile
import unittest

from samples import ended

from explain_mistakes import MODEL, MODEL_MISTAKES, SCRIPT, SCRIPT_MISTAKES, spoiled
from cloner_planning import explain, explain_model
from cloner_planning.command_line import main
from cloner_planning.errors import PlanningError
from cloner_planning.explain_tables import (
    Rule, Tables, has_type, in_range, read_tables, rule_of, type_of, unlinked)

class Folder(unittest.TestCase):
    """Tests with a model and a script in files."""

    def setUp(self):
        folder = tempfile.TemporaryDirectory()
        self.addCleanup(folder.cleanup)
        self.model = os.path.join(folder.name, "MODEL")
        self.script = os.path.join(folder.name, "SCRIPT")
        self.tables = read_tables()
        self.write(MODEL.encode(), SCRIPT.encode())

    def write(self, model, script):
        """Writes both files."""
        for path, data in ((self.model, model), (self.script, script)):
            with open(path, "wb") as file:
                file.write(data)

    def explained(self, said, front=None):
        """Returns the explanation of an error line, with short paths."""
        lines = explain.explain(said, front, self.tables, explain.Files(self.model, self.script))
        return "\n".join(lines).replace(self.model, "MODEL").replace(self.script, "SCRIPT")


class Mistakes(Folder):
    def test_models(self):
        for old, new, said, wanted in MODEL_MISTAKES:
            with self.subTest(new=new):
                self.write(spoiled(MODEL, old, new), SCRIPT.encode())
                text = self.explained("cloner: " + said)
                for part in wanted:
                    self.assertIn(part, text)
                self.assertNotIn(explain_model.GONE, text)

    def test_scripts(self):
        for old, new, said, wanted in SCRIPT_MISTAKES:
            with self.subTest(new=new):
                self.write(MODEL.encode(), spoiled(SCRIPT, old, new))
                text = self.explained("cloner: " + said)
                for part in wanted:
                    self.assertIn(part, text)
                self.assertNotIn("does not have this fault", text)

    def test_long_files(self):
        self.write(b" " * 1_048_577, b"#" * 1_048_577)
        self.assertIn("has 1,048,577 bytes", self.explained("cloner: model: refusal 1 at station 0"))
        self.assertIn("has 1,048,577 bytes", self.explained("cloner: script: refusal 1 at line 0"))

    def test_many_stations(self):
        self.write(b"lookahead = 1\nhorizon = 9\n" + b"".join(
            b'[[station]]\nname = "x%d"\nkind = "sink"\n' % number for number in range(1, 66)), b"")
        text = self.explained("cloner: model: refusal 12 at station 0")
        self.assertIn("MODEL:195: [[station]]", text)
        self.assertIn("There are 65", text)

    def test_a_model_that_was_changed_since(self):
        for said in ["8 at station 2 key servers", "3 at station 0 key horizon", "4 at station 1 key every",
                     "5 at station 2 key x", "6 at station 2", "7 at station 2", "9 at station 1", "10 at station 1",
                     "11 at station 1", "12 at station 1", "14 at station 1", "2 at station 0",
                     "8 at station 99 key servers"]:
            with self.subTest(said=said):
                self.assertIn(explain_model.GONE, self.explained(f"cloner: model: refusal {said}"))

    def test_a_script_that_was_changed_since(self):
        for said in ["script: refusal 2", "script: refusal 3", "script: refusal 4", "decision: refusal 3",
                     "decision: refusal 6", "decision: refusal 7", "decision: refusal 10", "decision: refusal 12"]:
            with self.subTest(said=said):
                self.assertIn("does not have this fault", self.explained(f"cloner: {said} at line 3"))
        self.assertIn("SCRIPT:99:", self.explained("cloner: decision: refusal 3 at line 99"))

    def test_nothing_that_harms_a_terminal(self):
        self.write(spoiled(MODEL, "servers = 2", "servers = 17 # \t\x1b[2J"), b"")
        self.assertNotIn("\x1b", self.explained("cloner: model: refusal 8 at station 2 key servers"))


class Statuses(Folder):
    def test_the_limit_of_a_run(self):
        text = self.explained("cloner: limit 100 met at station desk in clone fast")
        for part in ["Station `desk` would handle more than 100 messages in branch `fast`", "MODEL:11: name = \"desk\"",
                     "MODEL:3: horizon = 1000", "Up to the horizon 1000",
                     "What to do: see docs/PLANNING.md#how-long-a-model-may-be"]:
            self.assertIn(part, text)
        self.assertRegex(text, r"Write `limit = 2\d\d` at the top")

    def test_the_limit_of_live(self):
        text = self.explained("cloner: limit 100 met at station desk in clone base", 250)
        self.assertIn("last front is 250", text)
        self.assertIn("it would handle about 400. Write `limit = 441` at the top, "
                      "or a `horizon` of at most about 227", text)

    def test_a_limit_above_the_greatest(self):
        text = self.explained("cloner: limit 65536 met at station desk in clone base", 500)
        self.assertIn("The greatest limit is 65536: with it a `horizon` of about 454 fits", text)

    def test_the_limit_without_files(self):
        files = explain.Files(None, None)
        text = "\n".join(explain.explain("cloner: limit 5 met at station a in clone b", None, self.tables, files))
        self.assertIn("Write a greater `limit` at the top, up to 65536", text)

    def test_no_clone(self):
        text = self.explained("cloner: no clone fats")
        self.assertIn("mean `fast`?", text)
        self.assertIn("base, fast, two_clerks, brief", text)

    def test_the_others(self):
        for said, wanted in [("cloner: out of memory", "`horizon`"), ("cloner: cannot write", "full disk"),
                             ("usage: cloner run MODEL SCRIPT, and so on",
                              "Known: cloner solo MODEL SCRIPT --clone NAME"),
                             ("cloner: cannot read the model", "can be read now")]:
            self.assertIn(wanted, self.explained(said))

    def test_files_that_cannot_be_read(self):
        files = explain.Files(self.model[:-1], os.path.dirname(self.model))
        text = "\n".join(explain.explain("cloner: cannot read the model", None, self.tables, files))
        self.assertIn("There is no file", text)
        self.assertIn("Did you mean `MODEL`?", text)
        text = "\n".join(explain.explain("cloner: cannot read the script", None, self.tables, files))
        self.assertIn("is a folder", text)
        with self.assertRaises(PlanningError):
            explain.explain("cloner: model: refusal 8 at station 2 key servers", None, self.tables, files)

    def test_what_is_no_line_of_cloner(self):
        for said in ["hello", "cloner: hello", "cloner: model: refusal 13 at station 0",
                     "cloner: script: refusal 9 at line 3", "xcloner: out of memory", "cloner: out of memory, or not",
                     "clone base"]:
            with self.subTest(said=said), self.assertRaises(PlanningError):
                self.explained(said)


class Entry(Folder):
    def ended(self, text, *words):
        """Returns status, output and error output of the entry script."""
        return ended("explain", *words, text=text)

    def test_explains_with_status_1(self):
        self.write(spoiled(MODEL, "servers = 2", "servers = 17"), SCRIPT.encode())
        said = "cloner: model: refusal 8 at station 2 key servers\n"
        status, output, errors = self.ended(said, self.model, self.script)
        self.assertEqual((status, errors), (1, ""))
        self.assertEqual(output.split("\n")[0], said.strip())
        self.assertEqual(output.split("\n")[2], f"  {self.model}:13: servers = 17")
        self.assertEqual(self.ended(said)[0], 1)
        self.assertEqual(self.ended(said, self.model)[1], output)

    def test_the_empty_key(self):
        self.write(spoiled(MODEL, "servers = 2", 'servers = 2\n"" = 3'), SCRIPT.encode())
        status, output, errors = self.ended("cloner: model: refusal 5 at station 2 key \n", self.model)
        self.assertEqual((status, errors), (1, ""))
        self.assertIn(f'  {self.model}:14: "" = 3\n', output)

    def test_nothing_to_explain(self):
        self.assertEqual(self.ended("\n\n"), (0, "", ""))

    def test_the_last_line_counts(self):
        journal = "journal 1 2\n# front 7\nanalyst main\n# refused 11 front 9: x\n# front 250\nlooks 0\n"
        said = "cloner: limit 100 met at station desk in clone base\r\n\n"
        status, output, _ = self.ended(journal + said, self.model)
        self.assertEqual(status, 1)
        self.assertIn("last front is 250", output)

    def test_bad_input_has_status_2_and_one_line(self):
        for said, words in [("hello", []), ("cloner: model: refusal 8 at station 2 key servers", [self.model + "x"])]:
            status, output, errors = self.ended(said, *words)
            self.assertEqual((status, output), (2, ""))
            self.assertRegex(errors, r"\Acloner-planning: [^\n]*\n\Z")

    def test_unknown_letters_on_a_plain_terminal(self):
        self.write(MODEL.encode(), spoiled(SCRIPT, "# What", "# Wh\u00e4t"))
        status, output, _ = ended("explain", self.model, self.script, text="cloner: script: refusal 2 at line 1",
                                  environment={"PYTHONIOENCODING": "ascii"})
        self.assertEqual(status, 1)
        self.assertIn("Wh\\xe4t", output)

    def test_help(self):
        output = io.StringIO()
        with contextlib.redirect_stdout(output):
            self.assertEqual(main(["explain", "--help"]), 0)
        self.assertIn("ERROR || cloner-planning explain", output.getvalue())


class TablesOfFormats(unittest.TestCase):
    def setUp(self):
        self.tables = read_tables()

    def test_every_refusal_is_there(self):
        self.assertEqual(sorted(self.tables.refusals("a model")), [*range(1, 13), 14])
        self.assertEqual(sorted(self.tables.refusals("a script")), list(range(1, 7)))
        self.assertEqual(sorted(self.tables.refusals("a decision")), list(range(1, 13)))
        self.assertEqual(sorted(self.tables.refusals("watches")), list(range(1, 6)))
        self.assertEqual(sorted(self.tables.refusals("a watch")), [*range(3, 10), 12])
        self.assertEqual(sorted(self.tables.refusals("a snapshot")), [1, 2, 3, 4, 6])

    def test_keys(self):
        keys = self.tables.keys("of a station")
        self.assertEqual(keys["link"].kinds, ("source", "server", "delay", "router"))
        self.assertEqual(keys["order"].kinds, ("server",))
        self.assertEqual([name for name, key in keys.items() if key.later], ["class", "order"])
        self.assertEqual(list(self.tables.keys("of a link")), ["to", "delay", "weight"])
        for place in ("at the top", "of a station", "of a link"):
            for key in self.tables.keys(place).values():
                self.assertNotEqual(rule_of(key.type).form, "other", key.name)

    def test_rules(self):
        rule = rule_of(self.tables.keys("of a station")["hold"].type)
        self.assertEqual(rule, Rule("pair", 0, 1_000_000))
        self.assertTrue(has_type(rule, [1, 2]) and in_range(rule, [1, 2]))
        self.assertFalse(in_range(rule, [2, 1]) or has_type(rule, [True, 2]) or has_type(rule, [1]))
        self.assertEqual(rule_of(self.tables.keys("at the top")["station"].type), Rule("tables", 1, 64))
        self.assertEqual(type_of(True), "true or false")

    def test_statuses_parameters_and_forms(self):
        self.assertEqual([row.status for row in self.tables.statuses()],
                         [0, 1, 2, 3, 4, 5, 6, 6, 7, 8, 9, 9, 10, 11])
        self.assertEqual(self.tables.parameters()["weight"].taken_by, "router by weights")
        self.assertEqual(list(self.tables.script_forms()), ["analyst", "fork", "set", "end", "look"])
        self.assertEqual(list(self.tables.watch_forms()), ["watch"])
        self.assertEqual(list(self.tables.snapshot_forms()), ["snapshot", "station", "pending", "TIME", "trace"])
        self.assertEqual(list(self.tables.snapshot_shapes()), ["source", "server", "delay", "router", "sink"])
        self.assertEqual(len(self.tables.commands()), 9)

    def test_links_become_pages(self):
        self.assertEqual(unlinked("[the rules](FORMATS_MODEL.md#rules)"), "see docs/FORMATS_MODEL.md#rules")
        self.assertEqual(unlinked("or `solo`: [PLANNING.md](PLANNING.md#memory)"), "or `solo`: docs/PLANNING.md#memory")

    def test_a_page_without_the_table(self):
        for question in (lambda: Tables("nothing").parameters(), lambda: Tables("nothing").refusals("a model"),
                         lambda: read_tables("/nowhere/FORMATS.md")):
            with self.assertRaises(PlanningError):
                question()

    def test_no_number_is_unexplained(self):
        with open(explain_model.__file__, encoding="utf-8") as file:
            known = set(re.findall(r"\b(\d+): self\.\w+", file.read()))
        self.assertEqual(known, {str(number) for number in self.tables.refusals("a model")})


if __name__ == "__main__":
    unittest.main()
