"""report: the page of a study: whole, without scripts or links, and right in its figures and words."""
import html.parser
import os
import re
import unittest

from samples import MODEL, PROGRAM, SCRIPT, Folder, ended, example, model_text, needs_program

from cloner_planning.decision_words import said_branches
from cloner_planning.models import parse_model, read_model
from cloner_planning.scripts import parse_script, read_script
from cloner_planning.svg_diagram import columns_of, svg_of
from cloner_planning.svg_lines import step_of
from cloner_planning.units import Unit
from cloner_planning.watches import parse_watches

EMPTY = {"meta", "path", "rect"}


class Page(html.parser.HTMLParser):
    """Reads a page: its text, and whether its tags are closed in order."""

    def __init__(self, text):
        super().__init__()
        self.open, self.texts, self.tags, self.values = [], [], set(), []
        self.feed(text)
        assert not self.open, self.open

    def handle_starttag(self, tag, attributes):
        self.tags.add(tag)
        self.values += [(name, value) for name, value in attributes]
        if tag not in EMPTY:
            self.open.append(tag)

    def handle_startendtag(self, tag, attributes):
        self.tags.add(tag)
        self.values += list(attributes)

    def handle_endtag(self, tag):
        assert self.open.pop() == tag, tag

    def handle_data(self, data):
        self.texts += [data.strip()] * bool(data.strip())


class Words(unittest.TestCase):
    def test_decisions(self):
        script = parse_script("fork a from base\nset a at 120 desk servers 1\nset a at 60 desk service 2 2\n"
                              "set a at 90 gate every 30 90\nset a at 30 desk room 0\nend a at 600\n")
        watches = parse_watches("watch a desk wait 3 fork b set desk servers 2\n")
        model = parse_model(MODEL.replace("horizon = 20", "horizon = 1000"))
        self.assertEqual(said_branches(script, watches, model, None)["a"], [
            "from 30 on desk has room for 0 who wait (the model says 5)",
            "from 60 on desk serves in 2 (the model says 4)",
            "from 90 on gate makes a job every 30 to 90 (the model says 3)",
            "from 120 on desk has 1 server", "it ends at 600"])
        said = said_branches(script, watches, model, Unit("min", 6, 480))["a"]
        self.assertEqual(said[2], "from 8:15 on gate makes a job every 5 to 15 min (the model says 0.5 min)")
        self.assertEqual(said[-1], "it ends at 9:40")

    def test_weights(self):
        model = parse_model(model_text(("gate", "source", {"split": 1}), ("split", "router", {"out": 1, "gone": 1}),
                                       ("out", "sink", {}), ("gone", "sink", {})))
        script = parse_script("set base at 9 split weight 2 7\n")
        self.assertEqual(said_branches(script, [], model, None)["base"],
                         ["from 9 on split gives weight 7 to the way to gone"])


class Drawings(unittest.TestCase):
    def test_each_example(self):
        for name in ("clinic", "imaging", "factory", "motorway", "emergency"):
            model = read_model(example(name + ".toml"))
            names = [station.name for station in model.stations]
            self.assertEqual(sorted(name for column in columns_of(model) for name in column), sorted(names))
            page = Page(svg_of(model))
            for station in names:
                self.assertTrue(any(text.startswith(station + " (") for text in page.texts))

    def test_steps_of_a_grid(self):
        self.assertEqual([step_of(value) for value in (1, 6, 7, 60, 61, 400)], [1, 1, 2, 10, 20, 100])


@needs_program
class Reports(Folder):
    def report(self, *words):
        """Returns status, the page and errors of a report of the clinic."""
        path = os.path.join(self.folder, "page.html")
        status, _, errors = ended("report", example("clinic.toml"), example("clinic.txt"), "--bin", PROGRAM, "-o", path,
                                  "--jobs", "1", *words)
        if status:
            self.assertEqual([name for name in os.listdir(self.folder) if "page" in name], [])
            return status, "", errors
        with open(path, encoding="utf-8") as file:
            return status, file.read(), errors

    def test_the_page(self):
        words = ("--watches", example("clinic_watches.txt"), "--seeds", "1..2", "--unit", "min=1", "--clock", "8:00")
        status, text, _ = self.report(*words)
        self.assertEqual(status, 0)
        page = Page(text)
        self.assertEqual(page.tags & {"script", "link", "img", "iframe", "a"}, set())
        self.assertFalse(re.search(r"https?:|src=|href=|@import", text))
        for part in ("What check found", "The decisions", "rush, from base", "fourth, from rush",
                     "it came due in 2 of 2 seeds", "doctor: mean wait, min", "2 of 2",
                     "from 4d 12:00 on doctor has 2 servers (the model says 3)"):
            self.assertIn(part, page.texts)
        self.assertGreaterEqual(text.count("<svg"), 4)

    def test_the_figures_are_those_of_replicate(self):
        words = ("--seeds", "1..2", "--branches", "rush", "--stations", "doctor", "--figures", "lost")
        status, text, _ = self.report(*words)
        cells = re.findall(r"<td[^>]*>([^<]*)</td>", text)
        row = ended("replicate", example("clinic.toml"), example("clinic.txt"), "--bin", PROGRAM,
                    *words)[1].split("\n")[-2].split()
        self.assertEqual((status, cells[1:4], cells[5:8]), (0, row[4:7], row[7:10]))

    def test_bad_input_leaves_nothing(self):
        for words, part in ((["--branches", "ghost"], "no branch ghost"), (["--clock", "5:00"], "--clock needs"),
                            (["--watches", "/no/file"], "cannot read"), (["--figures", "x"], "no figure x")):
            status, _, errors = self.report(*words)
            self.assertEqual((status, errors.count("\n")), (2, 1))
            self.assertIn(part, errors)
        model = self.file("model", MODEL + "limit = 1\n")
        status, _, errors = ended("report", model, self.file("script", SCRIPT), "-o", self.folder + "/page.html")
        self.assertEqual(status, 2)
        self.assertEqual([name for name in os.listdir(self.folder) if "page" in name], [])


if __name__ == "__main__":
    unittest.main()
