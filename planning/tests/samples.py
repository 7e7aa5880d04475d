"""What the tests share: where the sources are, how a command is run, and samples of models, scripts and traces."""
import os
import re
import shutil
import subprocess
import sys
import tempfile
import time
import unittest

TESTS = os.path.dirname(os.path.abspath(__file__))
PLANNING = os.path.dirname(TESTS)
SOURCES = os.path.join(PLANNING, "src")
EXAMPLES = os.path.join(os.path.dirname(PLANNING), "examples")
sys.path.insert(0, SOURCES)

ENTRY = [sys.executable, "-m", "cloner_planning"]
ENVIRONMENT = dict(os.environ, PYTHONPATH=SOURCES)
PROGRAM = shutil.which("cloner")
needs_program = unittest.skipUnless(PROGRAM, "there is no cloner on the path")

# the first example of docs/FORMATS_MODEL.md
MODEL = """lookahead = 2
horizon = 20
[[station]]
name = "gate"
kind = "source"
every = [3, 3]
jobs = 2
link = [{ to = "desk", delay = 2 }]
[[station]]
name = "desk"
kind = "server"
servers = 1
room = 5
service = [4, 4]
link = [{ to = "out", delay = 2 }]
[[station]]
name = "out"
kind = "sink"
"""
SCRIPT = "fork fast from base\nset fast at 8 desk service 2 2\n"
BASE_TRACE = """clone base
3 gate gate 0 tick sent=1
5 desk gate 1 job gate.0 busy=1 wait=0 done=0 lost=0
6 gate gate 2 tick sent=2
8 desk gate 3 job gate.1 busy=1 wait=1 done=0 lost=0
9 desk desk 0 done gate.0 busy=1 wait=0 done=1 lost=0
11 out desk 1 job gate.0 got=1 stay=8
13 desk desk 2 done gate.1 busy=0 wait=0 done=2 lost=0
15 out desk 3 job gate.1 got=2 stay=17
"""
FAST_TRACE = """clone fast
3 gate gate 0 tick sent=1
5 desk gate 1 job gate.0 busy=1 wait=0 done=0 lost=0
6 gate gate 2 tick sent=2
8 desk analyst 0 set service 2 2 busy=1 wait=0 done=0 lost=0
8 desk gate 3 job gate.1 busy=1 wait=1 done=0 lost=0
9 desk desk 0 done gate.0 busy=1 wait=0 done=1 lost=0
11 out desk 1 job gate.0 got=1 stay=8
11 desk desk 2 done gate.1 busy=0 wait=0 done=2 lost=0
13 out desk 3 job gate.1 got=2 stay=15
"""
REPORT = """report
gate copies=1 handled=2 alone=4
desk copies=2 handled=8 alone=9
out copies=2 handled=3 alone=4
total handled=13 alone=17
"""
TRACE = BASE_TRACE + FAST_TRACE + REPORT

KEYS = {"source": "every = [2, 4]\njobs = 1000000\n", "server": "servers = 2\nroom = 5\nservice = [4, 6]\n",
        "delay": "hold = [5, 9]\n", "router": "by = \"weights\"\n", "sink": ""}
GATE = ("gate", "source", {"desk": 1})
DESK = ("desk", "server", {"out": 1})
OUT = ("out", "sink", {})


def model_text(*stations, horizon=1000, top=""):
    """Returns a model of stations (name, kind, ways, other keys).

    Ways are names with weights. The other keys replace the usual ones.
    """
    lines = [f"lookahead = 1\nhorizon = {horizon}\n{top}"]
    for name, kind, ways, *keys in stations:
        usual = KEYS[kind]
        for key in keys:
            usual = re.sub(rf"(?m)^{key.split()[0]} = .*\n", "", usual)
        links = ", ".join(f'{{ to = "{to}", delay = 1, weight = {weight} }}' for to, weight in ways.items())
        lines.append(f'[[station]]\nname = "{name}"\nkind = "{kind}"\n{usual}' + "".join(key + "\n" for key in keys)
                     + (f"link = [{links}]\n" if ways else ""))
    return "".join(lines)


def example(name):
    """Returns the path of a file of examples/."""
    return os.path.join(EXAMPLES, name)


def ended(*words, text="", folder=None, environment=None):
    """Returns status, output and error output of the command with these words."""
    done = subprocess.run([*ENTRY, *words], input=text.encode(), stdout=subprocess.PIPE, stderr=subprocess.PIPE,
                          cwd=folder, env=dict(ENVIRONMENT, **(environment or {})), check=False)
    return done.returncode, done.stdout.decode(), done.stderr.decode()


def wait_for(is_there, seconds=60):
    """Waits until something is there; fails if it takes too long."""
    end = time.monotonic() + seconds
    while not is_there():
        if time.monotonic() > end:
            raise AssertionError(f"not there after {seconds} seconds")
        time.sleep(0.01)


class Folder(unittest.TestCase):
    """Tests with files in a folder of their own."""

    def setUp(self):
        folder = tempfile.TemporaryDirectory()
        self.addCleanup(folder.cleanup)
        self.folder = folder.name

    def file(self, name, text, mode=0o644):
        """Writes a file and returns its path."""
        path = os.path.join(self.folder, name)
        with open(path, "wb") as file:
            file.write(text if isinstance(text, bytes) else text.encode())
        os.chmod(path, mode)
        return path
