"""The reader of models, and its reader of TOML compared with Python's."""
import glob
import os
import tempfile
import unittest

from samples import EXAMPLES

from cloner_planning.errors import PlanningError
from cloner_planning.models import Link, parse_model, read_model
from cloner_planning.places import Places

try:
    import tomllib
except ImportError:  # before Python 3.11
    tomllib = None

MODELS = sorted(glob.glob(os.path.join(EXAMPLES, "*.toml")))
SMALL = """lookahead = 2
horizon = 20

[[station]]
name = "gate"
kind = "source"
every = [3, 4]
jobs = 2
link = [{ to = "desk", delay = 2 }]

[[station]]
name = "desk"
kind = "server"
servers = 1
room = 5
service = [4, 4]
link = [{ to = "out", delay = 2 }, { to = "walk", delay = 3, weight = 7 }]

[[station]]
name = "walk"
kind = "delay"
hold = [0, 9]
link = [{ to = "split", delay = 2 }]

[[station]]
name = "split"
kind = "router"
by = "turn"
link = [{ to = "out", delay = 2 }]

[[station]]
name = "out"
kind = "sink"
"""


class Models(unittest.TestCase):
    def test_keys_and_their_defaults(self):
        model = parse_model(SMALL)
        self.assertEqual((model.format, model.lookahead, model.horizon, model.seed, model.limit), (1, 2, 20, 0, 16384))
        self.assertEqual([station.number for station in model.stations], [1, 2, 3, 4, 5])
        self.assertEqual([station.stream for station in model.stations], [1, 2, 3, 4, 5])
        gate, desk, walk, split, out = model.stations
        self.assertEqual((gate.every, gate.jobs, gate.job_class, gate.servers, gate.order), ((3, 4), 2, 1, 0, ""))
        self.assertEqual((desk.servers, desk.room, desk.service), (1, 5, (4, 4)))
        self.assertEqual((desk.order, desk.every), ("arrival", (0, 0)))
        self.assertEqual(desk.links, [Link("out", 2, 1), Link("walk", 3, 7)])
        self.assertEqual((walk.hold, split.by, out.kind, out.links), ((0, 9), "turn", "sink", []))
        self.assertEqual(model.station("walk"), walk)
        self.assertIsNone(model.station("till"))

    def test_format_2(self):
        text = SMALL.replace("jobs = 2", "jobs = 2\nclass = 3\nstream = 40")
        text = text.replace("room = 5", 'room = 5\norder = "class"')
        model = parse_model("format = 2\n" + text)
        self.assertEqual((model.format, model.station("gate").job_class, model.station("gate").stream), (2, 3, 40))
        self.assertEqual(model.station("desk").order, "class")

    def test_what_is_no_model_is_refused_in_one_line(self):
        for old, new, what in [
                ("lookahead = 2\n", "", "lookahead is missing"), ("horizon = 20", "horizon = 0", "horizon must be"),
                ("horizon = 20", "horizon = true", "horizon must be"),
                ("jobs = 2", 'jobs = "2"', "station 1, gate: jobs must be"),
                ("[3, 4]", "[5, 4]", "every must be"), ("[3, 4]", "[3]", "every must be"),
                ("[3, 4]", "3", "every must be"), ('"source"', '"gate"', "kind must be one of source, server"),
                ('"turn"', '"chance"', "by must be one of"), ('name = "walk"', 'name = "desk"', "there twice"),
                ('name = "gate"', 'name = "Gate"', "station 1: name must be a name"),
                ('to = "split"', 'to = "till"', "station 3, walk: a link leads to till, which is no station"),
                ('to = "split"', 'to = "gate"', "which is a source"),
                ("servers = 1", "servers = 17", "servers must be"),
                ('[{ to = "desk", delay = 2 }]', '["desk"]', "station 1, gate, link 1: no table"),
                ('[{ to = "desk", delay = 2 }]', "2", "link must be an array"),
                ("delay = 3", "delay = 0", "link 2: delay must be"),
                ("[[station]]", "[[statoin]]", "the key station is missing"), ("jobs = 2", "jobs 2", "no TOML"),
                ("jobs = 2", "jobs = " + "9" * 5000, "no TOML"), ("jobs = 2", "jobs = " + "[" * 5000, "no TOML")]:
            with self.assertRaisesRegex(PlanningError, what, msg=new[:99]) as caught:
                parse_model(SMALL.replace(old, new), "here.toml")
            self.assertTrue(str(caught.exception).startswith("here.toml: "))
            self.assertNotIn("\n", str(caught.exception))

    def test_no_stations(self):
        with self.assertRaisesRegex(PlanningError, "there is no station"):
            parse_model("lookahead = 1\nhorizon = 1\nstation = []\n")

    def test_files(self):
        with tempfile.TemporaryDirectory() as folder:
            path = os.path.join(folder, "model")
            with open(path, "wb") as file:
                file.write(b"\xef\xbb\xbf" + SMALL.replace("\n", "\r\n").encode())
            self.assertEqual(read_model(path), parse_model(SMALL))
            with open(path, "wb") as file:
                file.write(b"# caf\xe9\n")
            with self.assertRaisesRegex(PlanningError, "no UTF-8"):
                read_model(path)
            with open(path, "wb") as file:
                file.write(b" " * 1_048_577)
            with self.assertRaisesRegex(PlanningError, "at most 1048576 bytes"):
                read_model(path)
            with self.assertRaisesRegex(PlanningError, "cannot read"):
                read_model(folder)


def read_toml(text):
    """Returns the tables of a text; ValueError with the line of its first fault."""
    places = Places("m", text.encode("utf-8", "surrogatepass"))
    if places.fault:
        raise ValueError(f"line {places.fault.line}: {places.fault.reason}")
    return places.data


class Toml(unittest.TestCase):
    @unittest.skipIf(tomllib is None, "this Python has no tomllib")
    def test_both_readers_agree_on_the_examples(self):
        self.assertTrue(MODELS)
        for path in MODELS:
            with open(path, encoding="utf-8") as file:
                text = file.read()
            self.assertEqual(read_toml(text), tomllib.loads(text), path)

    @unittest.skipIf(tomllib is None, "this Python has no tomllib")
    def test_both_readers_agree_on_odd_texts(self):
        for text in ["", "# only a comment", "a = 1\n", " a=0x1F # x\nb = 1_000\nc = 0b11\nd = +7\ne = 0o17\n",
                     "'a b' = 'c\\d'\n\"\" = \"\\u00e9\\t\\\"\"\n", "a = [ # x\n 1,\n [], [2,],\n]\n",
                     "[[s]]\nx = 1\n[[s.l]]\ny = 2\n[[s.l]]\ny = 3\n[[s]]\n", "a.b.c = true\na.b.d = false\n",
                     "[a]\nb = {}\n[a.c]\nd = { e = { f = [1, 2] } }\n", "a = 1\r\nb = 2\r\n",
                     "[[s]]\n  name = \"x\"\n  link = [{to=\"y\",delay=1}]"]:
            self.assertEqual(read_toml(text), tomllib.loads(text), text)

    def test_an_inline_table_over_several_lines_as_toml_1_1_has_it(self):
        text = SMALL.replace('{ to = "desk", delay = 2 }', '{\n  to = "desk", # why\n  delay = 2,\n}')
        self.assertEqual(parse_model(text), parse_model(SMALL))

    def test_what_is_refused_has_its_line(self):
        for text in ["a = 1\na = 2", "a", "a =", "a = 1 2", 'a = "x',
                     'a = "x\n"', 'a = "\\q"', 'a = "\\ud800"', "a = [1", "a = {b = 1", "a = [1 2]", "a = 01",
                     "a = 1__0", "[a]\n[a]", "[[a]]\n[a]", "a = [1]\n[[a]]", "a = 1\n[a.b]", "[a",
                     "a = 9223372036854775808", "a = " + "[" * 81, "a = \x00", "= 1", "a = 1\rb = 2"]:
            with self.assertRaisesRegex(ValueError, "^line [12]: ", msg=text[:30]):
                read_toml(text)


if __name__ == "__main__":
    unittest.main()
