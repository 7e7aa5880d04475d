"""diagram: the drawing of a small model, line by line."""
import contextlib
import io
import os
import shutil
import subprocess
import tempfile
import unittest

import samples  # noqa: F401  (puts the package on the path)
from cloner_planning.command_line import main
from cloner_planning.diagram import dot_lines, percent, quoted
from cloner_planning.models import parse_model

MODEL = """format = 2
lookahead = 1
horizon = 100
[[station]]
name = "node"
kind = "source"
every = [3, 3]
jobs = 7
class = 2
link = [{ to = "desk", delay = 1 }]
[[station]]
name = "desk"
kind = "server"
servers = 2
room = 5
service = [4, 8]
order = "class"
link = [{ to = "check", delay = 2 }]
[[station]]
name = "check"
kind = "router"
by = "weights"
link = [{ to = "graph", delay = 3, weight = 2 }, { to = "walk", delay = 4 }]
[[station]]
name = "walk"
kind = "delay"
hold = [0, 9]
link = [{ to = "split", delay = 5 }]
[[station]]
name = "split"
kind = "router"
by = "turn"
link = [{ to = "graph", delay = 6, weight = 9 }, { to = "desk", delay = 7 }]
[[station]]
name = "graph"
kind = "sink"
"""


class Drawing(unittest.TestCase):
    def setUp(self):
        self.lines = [line.strip() for line in dot_lines(parse_model(MODEL), "a \"b\\")]

    def test_head(self):
        self.assertEqual(self.lines[0], 'digraph "a \\"b\\\\" {')
        self.assertEqual(self.lines[1], "rankdir=LR;")
        self.assertEqual(self.lines[-1], "}")

    def test_nodes(self):
        nodes = [line for line in self.lines if "fillcolor=" in line]
        self.assertEqual(len(nodes), 6)
        for node, begin in zip(nodes, [
                '"node" [label="node\\nsource\\nevery 3, jobs 7, class 2", shape=cds',
                '"desk" [label="desk\\nserver\\nservers 2, room 5, service 4 to 8, by class", shape=box',
                '"check" [label="check\\nrouter\\nby weights", shape=diamond',
                '"walk" [label="walk\\ndelay\\nhold 0 to 9", shape=ellipse',
                '"split" [label="split\\nrouter\\nby turn", shape=diamond',
                '"graph" [label="graph\\nsink", shape=doublecircle']):
            self.assertTrue(node.startswith(begin), node)

    def test_edges(self):
        self.assertEqual([line for line in self.lines if "->" in line], [
            '"node" -> "desk" [label="delay 1"];', '"desk" -> "check" [label="delay 2"];',
            '"check" -> "graph" [label="delay 3\\n66.7 %"];', '"check" -> "walk" [label="delay 4\\n33.3 %"];',
            '"walk" -> "split" [label="delay 5"];',
            '"split" -> "graph" [label="delay 6\\n1. in turn"];', '"split" -> "desk" [label="delay 7\\n2. in turn"];'])

    def test_parts(self):
        self.assertEqual([percent(0.25), percent(1 / 3), percent(0.0004), percent(1)],
                         ["25 %", "33.3 %", "0.0 %", "100 %"])
        self.assertEqual(quoted('a"\\\nb'), '"a\\"\\\\\\nb"')


class Entry(unittest.TestCase):
    def drawn(self, data):
        """Returns status and output for a model file."""
        with tempfile.TemporaryDirectory() as folder:
            path = os.path.join(folder, "m.toml")
            with open(path, "w", encoding="utf-8") as file:
                file.write(data)
            with contextlib.redirect_stdout(io.StringIO()) as output, contextlib.redirect_stderr(io.StringIO()):
                status = main(["diagram", path])
        return status, output.getvalue()

    def test_status(self):
        status, output = self.drawn(MODEL)
        self.assertEqual(status, 0)
        self.assertTrue(output.startswith('digraph "m.toml" {\n'))
        self.assertEqual(self.drawn("lookahead = 1"), (2, ""))

    @unittest.skipUnless(shutil.which("dot"), "Graphviz is not installed")
    def test_dot_takes_it(self):
        drawn = subprocess.run(["dot", "-Tsvg"], input=self.drawn(MODEL)[1].encode(), stdout=subprocess.PIPE,
                               stderr=subprocess.PIPE, check=False)
        self.assertEqual(drawn.returncode, 0)
        self.assertEqual(drawn.stderr, b"")
        self.assertIn(b"66.7", drawn.stdout)


if __name__ == "__main__":
    unittest.main()
