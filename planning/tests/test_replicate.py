"""replicate: seeds, seeds in models, and the table of a stand-in for cloner whose traces are known."""
import csv
import io
import os
import signal
import subprocess
import sys
import tempfile
import time
import unittest

import samples
from samples import ENTRY, ENVIRONMENT, SCRIPT, ended, wait_for

from cloner_planning.errors import PlanningError
from cloner_planning.models import parse_model
from cloner_planning.figures import DEFAULT_FIGURES, FIGURES, Value
from cloner_planning.replicate import Progress
from cloner_planning.seeds import parse_seeds, with_seed
from cloner_planning.spreads import Spread, Table
from cloner_planning.summary_rows import CSV_KEYS

MODEL = samples.MODEL.replace("[4, 4]", "[4, 9]").replace("= 20\n", "= 20\nseed = 100 # not this: seed = 5\n")


def take_interrupts():
    """Undoes what a shell does for a process in the background, which ignores SIGINT."""
    signal.signal(signal.SIGINT, signal.SIG_DFL)


# cloner's stand-in. With seed S the second service in base takes 3 + S, in fast 2. So the stays are 8 and 8 + S in
# base, 8 and 7 in fast, and the desk is busy for 7 + S of 20 in base, for 6 in fast. Seed 7 is one that the model's
# limit forbids, seed 8 makes a wrong trace.
STAND_IN = r"""#!PYTHON
import sys
assert sys.argv[1:3] == ["run", "--"] and len(sys.argv) == 5
seed = int([line for line in open(sys.argv[3]) if line.startswith("seed")][0].split()[2])
if seed == 7:
    sys.exit(print("cloner: limit 3 met at station desk in clone base", file=sys.stderr) or 7)
BEGIN = '''clone NAME
3 gate gate 0 tick sent=1
5 desk gate 1 job gate.0 busy=1 wait=0 done=0 lost=0
6 gate gate 2 tick sent=2
8 SET
8 desk gate 3 job gate.1 busy=1 wait=1 done=0 lost=0
9 desk desk 0 done gate.0 busy=1 wait=0 done=1 lost=0
11 out desk 1 job gate.0 got=1 stay=8
END desk desk 2 done gate.1 busy=0 wait=0 done=2 lost=0
LAST out desk 3 job gate.1 got=2 stay=SUM
'''
for name, service in (("base", 3 + seed % 8), ("fast", 2)):
    text = BEGIN.replace("NAME", name).replace("END", str(9 + service)).replace("LAST", str(11 + service))
    text = text.replace("SUM", str(13 + service if seed != 8 else 3))
    decision = "8 desk analyst 0 set service 2 2 busy=1 wait=0 done=0 lost=0\n" if name == "fast" else ""
    print(text.replace("8 SET\n", decision), end="")
print("report\ntotal handled=9 alone=9")
"""


def is_running(process):
    """Returns whether a process is there."""
    try:
        os.kill(process, 0)
        return True
    except ProcessLookupError:
        return False


class TestSeeds(unittest.TestCase):
    def test_lists(self):
        self.assertEqual(parse_seeds("1..4"), [1, 2, 3, 4])
        self.assertEqual(parse_seeds("3"), [3])
        self.assertEqual(parse_seeds("1,9,5"), [1, 9, 5])
        self.assertEqual(parse_seeds("0..1,9223372036854775807"), [0, 1, 9223372036854775807])

    def test_refused_lists(self):
        for text in ("", "a", "1..", "..3", "3..1", "1,,2", "-1", "1..3,2", "9223372036854775808", "1..100001", "1 ,2"):
            with self.assertRaises(PlanningError, msg=text):
                parse_seeds(text)


class TestWithSeed(unittest.TestCase):
    def test_the_line_is_replaced(self):
        self.assertEqual(with_seed("seed=3\nhorizon = 9\n", 7), "seed= 7\nhorizon = 9\n")
        self.assertEqual(with_seed("horizon = 9\r\nseed = 0x1_0 # why\r\n", 7), "horizon = 9\r\nseed = 7 # why\r\n")
        self.assertEqual(with_seed("\ufeff'seed' = 3", 7), "\ufeff'seed' = 7")

    def test_comments_strings_and_tables_stay(self):
        for head in ("# seed = 3\n", "x = 'seed = 3'\n", 'x = """\nseed = 3\n\\""" # [\n"""\n',
                     "x = '''\nseed = 3\n'''\n", "x = [ # ]\n{ a = '[', seed = 3 },\n]\n", 'x = "\\"" # "\n',
                     "xseed = 3\n", "x.seed = 3\n"):
            self.assertEqual(with_seed(head + "seed = 3\n", 7), head + "seed = 7\n")
        self.assertEqual(with_seed("[[station]]\nseed = 3\n", 7), "seed = 7\n[[station]]\nseed = 3\n")

    def test_a_model_without_seed_gets_one(self):
        without = MODEL.replace("seed = 100 # not this: seed = 5\n", "")
        for text in (MODEL, without, "\ufeff" + without):
            new = with_seed(text, 7).lstrip("\ufeff")
            self.assertEqual(parse_model(new), parse_model(text.lstrip("\ufeff"))._replace(seed=7))


class TestTable(unittest.TestCase):
    def test_figures_are_those_of_the_summary(self):
        self.assertLessEqual({name for names in FIGURES.values() for name in names}, set(CSV_KEYS))
        self.assertLessEqual(set(DEFAULT_FIGURES), {name for names in FIGURES.values() for name in names})

    def test_spread(self):
        spread = Spread()
        for value in (2, None, -1, 5):
            spread.add(value)
        self.assertEqual((spread.count, spread.mean(), spread.least, spread.greatest, spread.above), (3, 2.0, -1, 5, 2))
        self.assertIsNone(Spread().mean())

    def test_differences_are_taken_within_a_run(self):
        table = Table()
        for base_lost, fast_lost, base_wait, fast_wait in ((10, 8, None, 1.0), (1, 4, 2.0, 3.0)):
            table.add([Value("base", "desk", None, "lost", base_lost), Value("fast", "desk", None, "lost", fast_lost),
                       Value("base", "desk", None, "wait_mean", base_wait),
                       Value("fast", "desk", None, "wait_mean", fast_wait)])
        own, more = table.spreads["fast", "desk", None, "lost"]
        self.assertEqual((own.mean(), more.mean(), more.least, more.greatest, more.above), (6.0, 0.5, -2, 3, 1))
        own, more = table.spreads["fast", "desk", None, "wait_mean"]
        self.assertEqual((own.count, more.count, more.mean()), (2, 1, 1.0))

    def test_progress(self):
        output = io.StringIO()
        progress = Progress(20, output)
        for _ in range(20):
            progress.step()
        self.assertEqual(output.getvalue().split("\n")[:3], ["2 of 20 runs", "4 of 20 runs", "6 of 20 runs"])
        self.assertEqual(output.getvalue().count("\n"), 10)
        output.isatty, output.seek = (lambda: True), output.seek
        output.truncate(output.seek(0))
        Progress(2, output).step()
        self.assertEqual(output.getvalue(), "\r1 of 2 runs")


class TestReplicate(unittest.TestCase):
    def setUp(self):
        self.folder = tempfile.TemporaryDirectory()
        self.addCleanup(self.folder.cleanup)
        self.model, self.script = self.file("model", MODEL), self.file("script", SCRIPT)
        self.program = self.file("stand_in", STAND_IN.replace("PYTHON", sys.executable))
        os.chmod(self.program, 0o755)

    def file(self, name, text):
        path = os.path.join(self.folder.name, name)
        with open(path, "w", encoding="ascii") as file:
            file.write(text)
        return path

    def replicate(self, *words):
        return ended("replicate", self.model, self.script, "--bin", self.program, "--jobs", "2", *words)

    def test_table(self):
        status, output, errors = self.replicate("--seeds", "1..3", "--figures", "stay,used", "--stations", "out,desk")
        self.assertEqual((status, errors), (0, "1 of 3 runs\n2 of 3 runs\n3 of 3 runs\n"))
        rows = [line.split() for line in output.split("\n")[2:] if line]
        self.assertEqual(rows, [
            ["station", "figure", "branch", "seeds", "mean", "least", "greatest",
             "minus", "base", "least", "greatest", "above", "0"],
            # busy for 8, 9 and 10 of 20
            ["desk", "used_share", "base", "3", "45.00", "40.00", "50.00", "-", "-", "-", "-"],
            ["desk", "used_share", "fast", "3", "30.00", "30.00", "30.00",
             "-15.00", "-20.00", "-10.00", "0", "of", "3"],
            # stays of 8 and 8 + S, and of 8 and 7
            ["out", "stay_mean", "base", "3", "9.00", "8.50", "9.50", "-", "-", "-", "-"],
            ["out", "stay_mean", "fast", "3", "7.50", "7.50", "7.50", "-1.50", "-2.00", "-1.00", "0", "of", "3"]])

    def test_default_figures(self):
        status, output, _ = self.replicate("--seeds", "1", "--branches", "fast")
        self.assertEqual(status, 0)
        self.assertEqual([line.split()[:3] for line in output.split("\n")[3:] if line], [
            ["desk", figure, "fast"] for figure in ("lost", "wait_mean", "line_mean", "used_share")] + [
            ["out", figure, "fast"] for figure in ("got", "stay_mean")])

    def test_csv(self):
        rows = [["seed", "branch", "station", "figure", "value"]]
        for seed, stay in (("5", "10.5000"), ("2", "9.0000")):
            rows += [[seed, "base", "out", "got", "2"], [seed, "base", "out", "stay_mean", stay],
                     [seed, "fast", "out", "got", "2"], [seed, "fast", "out", "stay_mean", "7.5000"]]
        path = os.path.join(self.folder.name, "values.csv")
        words = ("--seeds", "5,2", "--stations", "out")
        status, output, _ = self.replicate(*words, "--csv", "-")
        self.assertEqual((status, list(csv.reader(io.StringIO(output)))), (0, rows))
        status, table, _ = self.replicate(*words, "--csv", path)
        with open(path, encoding="ascii", newline="") as file:
            self.assertEqual(file.read(), output)
        self.assertIn("2 seeds", table)

    def test_span(self):
        # from 10 on and before 12: one job leaves, after 8; the second is in service, in fast up to 11
        status, output, _ = self.replicate("--seeds", "1", "--from", "10", "--to", "12", "--figures", "got,stay,used",
                                           "--csv", "-")
        self.assertEqual((status, output.split("\n")[1:-1]), (0, [
            "1,base,desk,used_share,100.0000", "1,base,out,got,1", "1,base,out,stay_mean,8.0000",
            "1,fast,desk,used_share,50.0000", "1,fast,out,got,1", "1,fast,out,stay_mean,8.0000"]))

    def test_a_run_that_fails(self):
        status, output, errors = self.replicate("--seeds", "7,2")
        self.assertEqual((status, output), (2, ""))
        status, output, errors = self.replicate("--seeds", "1,7,2", "--figures", "got")
        self.assertEqual((status, output), (2, """\
1 seed, times from 0 on and before 20

station figure branch seeds mean least greatest minus base least greatest above 0
out     got    base       1 2.00     2        2          -     -        -       -
out     got    fast       1 2.00     2        2       0.00     0        0  0 of 1
"""))
        self.assertEqual(errors.split("\n")[-2],
                         "cloner-planning: seed 7: cloner: limit 3 met at station desk in clone base")

    def test_a_trace_that_is_wrong(self):
        status, _, errors = self.replicate("--seeds", "8")
        self.assertEqual(status, 2)
        self.assertRegex(errors, "^cloner-planning: seed 8: line 9 of the trace: .*\n$")

    def test_a_program_that_writes_for_ever(self):
        self.program = self.file("endless", f"#!{sys.executable}\nwhile True:\n    print('y')\n")
        os.chmod(self.program, 0o755)
        status, _, errors = self.replicate("--seeds", "1")
        self.assertEqual(status, 2)
        self.assertRegex(errors, "^cloner-planning: seed 1: line 1 of the trace: .*\n$")

    def test_a_csv_is_continued(self):
        path, words = self.file("values.csv", ""), ("--figures", "stay,used")
        os.remove(path)
        self.assertEqual(self.replicate("--seeds", "1,7,2", *words, "--csv", path)[0], 2)
        with open(path, encoding="ascii") as file:
            self.assertEqual({line.split(",")[0] for line in file}, {"seed", "1"})
        status, table, notes = self.replicate("--seeds", "1..3", *words, "--continue", path)
        self.assertEqual(status, 0)
        self.assertIn("note: 1 of 3 seeds are in", notes)
        self.assertEqual(table, self.replicate("--seeds", "1..3", *words)[1])
        with open(path, encoding="ascii") as file:
            text = file.read()
        self.assertEqual(text, self.replicate("--seeds", "1..3", *words, "--csv", "-")[1])
        self.assertEqual(self.replicate("--seeds", "1..3", *words, "--continue", path)[1], table)
        self.assertEqual(sorted(os.listdir(self.folder.name)), ["model", "script", "stand_in", "values.csv"])

    def test_a_csv_that_cannot_be_continued(self):
        words = ("--figures", "stay,used")
        text = self.replicate("--seeds", "1..2", *words, "--csv", "-")[1]
        lines = text.splitlines(True)
        for wrong, part in ((text[:-3], "is cut"), ("".join(lines[:-1]), "seed 2 is cut"), ("a,b\n", "is no CSV of"),
                            (text + lines[1], "line 10: seed 1 is there twice"), (text + "x\n", "line 10 is no value"),
                            (text.replace("fast", "slow"), "other branches"), (b"\xff\n", "not UTF-8")):
            path = os.path.join(self.folder.name, "old.csv")
            with open(path, "wb") as file:
                file.write(wrong if isinstance(wrong, bytes) else wrong.encode())
            status, output, errors = self.replicate("--seeds", "1..3", *words, "--continue", path)
            self.assertEqual((status, output, errors.count("\n")), (2, "", 1), wrong)
            self.assertIn(part, errors)
            with open(path, "rb") as file:
                self.assertEqual(file.read(), wrong if isinstance(wrong, bytes) else wrong.encode())
        self.assertEqual(self.replicate("--seeds", "1", "--continue", "/no/file")[0], 2)

    def test_against_another_branch_or_the_parent(self):
        with open(self.script, "a", encoding="ascii") as file:
            file.write("fork faster from fast\nset faster at 8 desk service 1 1\n")
        self.program = self.file("three", STAND_IN.replace("PYTHON", sys.executable).replace(
            '("fast", 2))', '("fast", 2), ("faster", 3))').replace('name == "fast"', 'name != "base"'))
        os.chmod(self.program, 0o755)
        rows = {}
        for against in ("base", "fast", "parent"):
            status, output, errors = self.replicate("--seeds", "1", "--figures", "stay", "--against", against)
            self.assertEqual(status, 0, errors)
            self.assertIn("minus " + against, output)
            rows[against] = {line.split()[2]: line.split()[7] for line in output.split("\n")[3:] if line}
        # the stays are 8.5, 7.5 and 8
        self.assertEqual(rows, {"base": {"base": "-", "fast": "-1.00", "faster": "-0.50"},
                                "fast": {"base": "1.00", "fast": "-", "faster": "0.50"},
                                "parent": {"base": "-", "fast": "-1.00", "faster": "0.50"}})
        self.assertIn("no branch slow", self.replicate("--seeds", "1", "--against", "slow")[2])

    def test_signals_leave_no_folder(self):
        self.program = self.file("endless", "#!/bin/sh\necho $$ > PLACE\nexec sleep 60\n".replace(
            "PLACE", os.path.join(self.folder.name, "id")))
        os.chmod(self.program, 0o755)
        temporary = os.path.join(self.folder.name, "temporary")
        os.mkdir(temporary)
        command = [*ENTRY, "replicate", self.model, self.script, "--bin", self.program, "--seeds", "1..4",
                   "--jobs", "2"]
        for number, status in ((signal.SIGTERM, 143), (signal.SIGINT, 130)):
            process = subprocess.Popen(command, stderr=subprocess.PIPE, env=dict(ENVIRONMENT, TMPDIR=temporary),
                                       preexec_fn=take_interrupts)
            self.addCleanup(process.kill)
            wait_for(lambda: os.listdir(temporary) and os.path.exists(os.path.join(self.folder.name, "id")))
            time.sleep(0.2)
            process.send_signal(number)
            errors = process.communicate()[1]
            self.assertEqual((process.returncode, os.listdir(temporary), errors), (status, [], b""))
            with open(os.path.join(self.folder.name, "id"), encoding="ascii") as file:
                self.assertFalse(is_running(int(file.read())))
            os.remove(os.path.join(self.folder.name, "id"))

    def test_nothing_is_selected(self):
        status, output, errors = self.replicate("--seeds", "1", "--stations", "out", "--figures", "lost,wait")
        self.assertEqual((status, output), (2, ""))
        self.assertEqual(errors, "cloner-planning: nothing is selected: out has no lost or wait_mean\n")

    def test_refusals(self):
        for words, part in ((["--figures", "p5"], "no figure p5"), (["--stations", "gate"], "no server or sink gate"),
                            (["--branches", "slow"], "no branch slow"), (["--to", "21"], "beyond the horizon"),
                            (["--from", "20"], "not below 20"), (["--jobs", "0"], "no number from 1"),
                            (["--bin", "/no/cloner"], "no program /no/cloner")):
            status, output, errors = self.replicate("--seeds", "1", *words)
            self.assertEqual((status, output), (2, ""))
            self.assertIn(part, errors)
            self.assertEqual(errors.count("\n"), 1)


if __name__ == "__main__":
    unittest.main()
