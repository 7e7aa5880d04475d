"""places and toml_lines: the line of each key of a model, in every form that TOML 1.1 has, and a text's first fault."""
import glob
import os
import unittest

from samples import EXAMPLES, TESTS

from cloner_planning.errors import PlanningError
from cloner_planning.places import Places, printable, read_places
from cloner_planning.toml_lines import Other

try:
    import tomllib
except ImportError:  # before Python 3.11
    tomllib = None

MODELS = sorted(glob.glob(os.path.join(EXAMPLES, "*.toml")))
FORMS = """# [[station]]
lookahead = 1 # = 2
'horizon' = 0x1_0
[[station]]
"na\\u006de" = "gate"   # name = "other"
link = [ # first
  {
    to = "desk", # [[station]]
    "delay" = 2,
  },
  { to = 'out', delay = 3 }, ]

[[ station ]]
  name = '''desk'''
[[station.link]]
to = \"\"\"
out\"\"\"
delay = 4
  [[ "station" . 'link' ]]
  to = "desk"
[[station]]
name = "out"
"""
ZOO = """b = [1, 2, [3, "x"], {c = 1, d.e = 'f', }]
m = \"\"\"two
lines \\
   "joined\"\"\"\"
l = '''a 'b' c'''
f = -1.5e3
i = +7
t = true
s = "\\t\\"\\\\\\u00e9\\e"
d1 = 1979-05-27T07:32:00Z
d2 = 1979-05-27 07:32:00.5+01:00
d3 = 07:32
[x.y]
k = inf
[x]
z = nan
q.r = 1
q.s = 2
[[a]]
[a.b]
n = 1
[[a]]
"""
# texts that are no TOML, with line, column and a part of the reason
FAULTS = [
    ("a = [1, 2", 1, 5, "`]` is missing"),
    ("a = [1, 2\nb = 3", 2, 1, "begins in line 1"),
    ("a = [1,\n[[station]]", 2, 1, "begins in line 1"),
    ("a = [1 2]", 1, 8, "`,` or `]` is missing before `2`"),
    ("a = { b = 1", 1, 5, "`}` is missing"),
    ("a = { b = 1 c = 2 }", 1, 13, "`,` or `}` is missing"),
    ("a = { b = 1,\n[[c]]", 2, 1, "begins in line 1"),
    ("a = { , }", 1, 7, "`,` or `}` is missing"),
    ("a = \"x", 1, 5, "no closing \""),
    ("a = 'x\n'", 1, 5, "no closing '"),
    ("a = \"\"\"x\n", 1, 5, "no closing \"\"\""),
    ("a = \"\\q\"", 1, 6, "no escape"),
    ("a = \u201cx\u201d", 1, 5, "plain quotes"),
    ("a = True", 1, 5, "small letters"),
    ("a = 1.", 1, 5, "no number"),
    ("a = 1__0", 1, 5, "no number"),
    ("a = 010", 1, 5, "leading zero"),
    ("a = desk", 1, 5, "in quotes, \"desk\""),
    ("a =", 1, 4, "value is missing"),
    ("a", 1, 2, "`=` is missing"),
    ("= 1", 1, 1, "where a key belongs"),
    ("a = 1 b = 2", 1, 7, "too much"),
    ("a = 1\na = 2", 2, 1, "first in line 1"),
    ("a = 1\n[a]", 2, 1, "defined twice"),
    ("[a]\n[a]", 2, 1, "defined twice"),
    ("[a]\n[[a]]", 2, 1, "no array of tables"),
    ("a = [{}]\n[[a]]", 2, 1, "no array of tables"),
    ("a = {}\na.b = 1", 2, 1, "has a value already"),
    ("[a.b]\nc = 1\n[a]\nb.c = 2", 4, 3, "defined twice"),
    ("[[a]", 1, 4, "`]]` is missing"),
    ("[a", 1, 3, "`]` is missing"),
    ("a = 9223372036854775808", 1, 5, "64-bit"),
    ("a = " + "9" * 5000, 1, 5, "64-bit"),
    ("a = 1 # \x01", 1, 9, "control character (byte 0x01)"),
    ("a = \"\x7f\"", 1, 6, "control character (byte 0x7f)"),
    ("a = 1\rb = 2", 1, 6, "too much"),
    ("a = " + "[" * 81, 1, 85, "more than 80 deep"),
]


def places_of(text):
    """Returns the places of a text."""
    return Places("x", text.encode("utf-8"))


def plain(value):
    """Returns a value with all dates and times alike."""
    if isinstance(value, dict):
        return {key: plain(inner) for key, inner in value.items()}
    if isinstance(value, list):
        return [plain(inner) for inner in value]
    return value if isinstance(value, (bool, int, float, str)) else "a date or a time"


class Lines(unittest.TestCase):
    def test_each_form(self):
        places = places_of(FORMS)
        self.assertIsNone(places.fault)
        wanted = {("lookahead",): 2, ("horizon",): 3, ("station",): 4, ("station", 1): 4, ("station", 1, "name"): 5,
                  ("station", 1, "link"): 6, ("station", 1, "link", 1): 7, ("station", 1, "link", 1, "to"): 8,
                  ("station", 1, "link", 1, "delay"): 9, ("station", 1, "link", 2): 11,
                  ("station", 1, "link", 2, "delay"): 11, ("station", 2): 13, ("station", 2, "name"): 14,
                  ("station", 2, "link", 1): 15, ("station", 2, "link", 1, "to"): 16,
                  ("station", 2, "link", 1, "delay"): 18, ("station", 2, "link", 2): 19,
                  ("station", 2, "link", 2, "to"): 20, ("station", 3): 21, ("station", 3, "name"): 22}
        self.assertEqual({place: places.line(place) for place in wanted}, wanted)
        self.assertEqual(places.entries["station", 1, "link", 2, "delay"].column, 17)
        self.assertEqual([table["name"] for table in places.stations()], ["gate", "desk", "out"])
        self.assertEqual([link["to"] for _, link in places.links(2)], ["out", "desk"])
        self.assertEqual(places.links(3) + places.links(4) + places.links(0), [])
        self.assertEqual(places.data["horizon"], 16)
        self.assertIsNone(places.line(("seed",)))

    def test_windows_lines_and_byte_order_mark(self):
        places = Places("x", b"\xef\xbb\xbf" + FORMS.replace("\n", "\r\n").encode())
        self.assertIsNone(places.fault)
        self.assertEqual(places.line(("station", 2, "link", 2, "to")), 20)
        self.assertEqual(places.entries["lookahead",].column, 1)

    def test_shown_lines_harm_no_terminal(self):
        self.assertEqual(places_of("a = 1\t\x1b[2J \u0086").shown(1), "x:1: a = 1 ?[2J ?")
        self.assertEqual(len(printable("x" * 1000)), 163)
        self.assertEqual(places_of("").shown(7), "x:7: ")

    def test_a_file_that_cannot_be_read(self):
        with self.assertRaises(PlanningError):
            read_places(TESTS)

    def test_a_file_that_is_too_long(self):
        places = Places("x", b"#" * 1_048_577)
        self.assertEqual((places.fault, places.data), (None, {}))


class Faults(unittest.TestCase):
    def test_each_fault(self):
        for text, line, column, reason in FAULTS:
            with self.subTest(text=text[:40]):
                fault = places_of(text).fault
                self.assertEqual((fault.line, fault.column), (line, column), fault)
                self.assertIn(reason, fault.reason)

    def test_what_was_read_before_a_fault_stays(self):
        places = places_of("[[station]]\nname = \"gate\"\nlink = [{ to = \"a\" }, { to = ")
        self.assertEqual(places.line(("station", 1, "link", 1, "to")), 3)
        self.assertEqual(places.stations()[0]["name"], "gate")

    def test_bytes_that_are_no_utf8(self):
        fault = Places("x", "a = 1\n# \u00e9\u00e9".encode() + b"\xff").fault
        self.assertEqual((fault.line, fault.column), (2, 5))
        self.assertIn("0xff", fault.reason)

    def test_80_deep(self):
        self.assertIsNone(places_of("a = " + "[" * 80 + "]" * 80).fault)


class PythonsReader(unittest.TestCase):
    def test_values(self):
        data = places_of(ZOO).data
        self.assertEqual(data["b"], [1, 2, [3, "x"], {"c": 1, "d": {"e": "f"}}])
        self.assertEqual((data["m"], data["l"]), ("two\nlines \"joined\"", "a 'b' c"))
        self.assertEqual((data["f"], data["i"], data["t"], data["s"]), (-1500.0, 7, True, "\t\"\\\u00e9\x1b"))
        self.assertEqual((data["d3"], data["x"]["q"]), (Other("07:32"), {"r": 1, "s": 2}))
        self.assertEqual((data["x"]["y"], data["a"]), ({"k": float("inf")}, [{"b": {"n": 1}}, {}]))

    @unittest.skipUnless(tomllib, "Python's reader of TOML is there from 3.11 on")
    def test_the_faults_are_faults_there(self):
        for text, _, _, reason in FAULTS:
            if "64-bit" in reason or "80 deep" in reason:
                continue
            with self.subTest(text=text), self.assertRaises(tomllib.TOMLDecodeError):
                tomllib.loads(text)


if __name__ == "__main__":
    unittest.main()
