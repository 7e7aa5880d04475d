"""explain: deliberate mistakes in a snapshot, with the error lines of docs/FORMATS_SNAPSHOT.md, as text."""
import os
import tempfile
import unittest

from samples import ended

from explain_mistakes import MODEL, spoiled
from cloner_planning import explain
from cloner_planning.errors import PlanningError
from cloner_planning.explain_snapshots import GONE
from cloner_planning.explain_tables import Tables, read_tables

SNAPSHOT = """snapshot night front 14 end 90
station 1 next 5 drawn 3 handled 2 source 3 5 2
station 2 next 3 drawn 2 handled 3 server 2 5 4 8 2 1 0 line 2 1.0.3 1.1.10
station 3 next 0 drawn 0 handled 0 router 0 9 1
station 4 next 0 drawn 0 handled 0 delay 0 9 0
station 5 next 0 drawn 0 handled 0 sink 0 0
pending 4
15 1 4 1 tick
15 2 2 3 job 1.0.5
17 2 1 2 done 1.1.10
80 0 0 2 set servers 3
trace 2
5 gate gate 0 tick sent=1
7 desk gate 1 job gate.0 busy=1 wait=0 done=0 lost=0
"""
TRACE = SNAPSHOT[SNAPSHOT.index("trace"):]
LAST = "7 desk gate 1 job gate.0 busy=1 wait=0 done=0 lost=0\n"
TICK, JOB, DONE, SET = "15 1 4 1 tick", "15 2 2 3 job 1.0.5", "17 2 1 2 done 1.1.10", "80 0 0 2 set servers 3"
SERVER = "server 2 5 4 8 2 1 0 line 2 1.0.3 1.1.10"

# of each mistake: what is replaced in the snapshot by what, the refusal, and what the explanation has
MISTAKES = [
    ("snapshot", "Snapshot", "2 at 1", ["Here belongs the first line", "`Snapshot` is where `snapshot` belongs",
                                        "The form: `snapshot NAME front F end E`."]),
    ("night", "Night", "2 at 1", ["Column 10: `Night` is no name of a branch."]),
    ("end 90", "end", "2 at 1", ["After `end` E is missing."]),
    ("end 90", "end none", "2 at 1", ["Column 29: `none` is no number: digits alone make a number."]),
    ("front 14", "front 014", "2 at 1", ["`014` is no number: it has a leading zero."]),
    ("front 14", "front  14", "2 at 1", ["Column 22 has a second space", "exactly one space"]),
    ("front 14", "front\t14", "2 at 1", ["Column 21 has a tab"]),
    ("end 90", "end 90 ", "2 at 1", ["Column 31 has a space"]),
    ("end 90", "end 90\r", "2 at 1", ["ends with CR LF", "LF alone"]),
    ("end 90\n", "end 90\n\n", "2 at 2", ["The line is empty", "Here belongs station 1 of 5, `gate`."]),
    ("station 2", "station 3", "2 at 3", ["SNAPSHOT:3: station 3", "Here belongs station 2 of 5, `desk`.",
                                          "Column 9: `3` is where `2` belongs."]),
    ("next 3", "next 4294967296", "2 at 3", ["the greatest is 4,294,967,295"]),
    ("server 2 5", "servers 2 5", "2 at 3", ["`servers` is no kind: they are source, server", "mean `server`?",
                                             "The form: `station 2 next N drawn N handled N SHAPE`."]),
    ("line 2", "line 3", "2 at 3", ["After `1.1.10` J is missing.",
                                    "server SERVERS ROOM LO HI BUSY DONE LOST line N J ..`"]),
    ("line 2", "line 1", "2 at 3", ["Column 70: `1.1.10` is too much."]),
    ("1.0.3", "gate.0", "2 at 3", ["`gate.0` is no job: a job is SOURCE.COUNT.BORN"]),
    ("1.0.3", "1.00.3", "2 at 3", ["`1.00.3` is no job: it has a leading zero."]),
    ("router 0 9 1", "router 0 9", "2 at 4", ["After `9` W is missing.", "router PASSED W ..`"]),
    ("sink 0 0", "sink 0 18446744073709551616", "2 at 6", ["the greatest is 18,446,744,073,709,551,615"]),
    ("station 5 next 0 drawn 0 handled 0 sink 0 0\n", "", "2 at 6",
     ["The model has 5 stations, the snapshot 4. Is it the snapshot of another model?"]),
    ("pending 4\n", "station 6 next 0 drawn 0 handled 0 sink 0 0\npending 4\n", "2 at 7",
     ["The model has 5 stations, the snapshot has more."]),
    ("pending 4", "pending 5", "2 at 12", ["SNAPSHOT:7: pending 5", "Only 4 messages follow it."]),
    ("pending 4", "pending 3", "2 at 11", ["SNAPSHOT:7: pending 3", "This is one more."]),
    ("pending 4", "pending 4294967295", "2 at 12", ["Only 4 messages follow it."]),
    (TICK, "15 1 4 tick", "2 at 8", ["Column 8: `tick` is no number", "Here belongs message 0, counted from 0."]),
    (TICK, "15 1 4 1 tock", "2 at 8", ["`tock` is no message: they are tick, job, done, set.", "mean `tick`?"]),
    (SET, "80 0 0 2 set server 3", "2 at 11", ["`server` is no parameter", "mean `servers`?"]),
    (SET, "80 0 0 2 set servers 3 4", "2 at 11", ["`4` is too much."]),
    (SET, "80 0 0 2 set servers", "2 at 11", ["After `servers` A is missing."]),
    ("trace 2", "trace two", "2 at 12", ["Column 7: `two` is no number"]),
    (LAST, "x" * 201 + "\n", "2 at 14", ["It has 201 bytes, and 1 to 200 are allowed.", "line 2 of the trace"]),
    (LAST, "\n", "2 at 14", ["It has 0 bytes"]),
    (LAST, "7 desk\u00e9\n", "2 at 14", ["Column 7: the byte 0xc3 is no printed ASCII character."]),
    (LAST, "", "2 at 14", ["SNAPSHOT ends before line 14. Here belongs line 2 of the trace.", "SNAPSHOT:12: trace 2"]),
    (LAST, LAST[:-1], "2 at 14", ["The file ends in this line, which has no line end: was it cut?"]),
    (LAST, LAST + "report\n", "2 at 15", ["SNAPSHOT:15: report", "SNAPSHOT:12: trace 2",
                                          "The trace has its 2 lines before this one"]),
    (TRACE, "", "2 at 12", ["SNAPSHOT ends before line 12. Here belongs `trace N`."]),
    (SET + "\n" + TRACE, "", "2 at 11", ["Here belongs message 3, counted from 0.", "SNAPSHOT:7: pending 4"]),
    ("front 14", "front 91", "6 at 0", ["The front 91 is beyond the end, which is 90."]),
    ("front 14 end 90", "front 1001 end -", "6 at 0",
     ["MODEL:3: horizon = 1000", "The front 1001 is beyond the horizon, which is 1000."]),
    ("end 90", "end 1000", "6 at 0", ["The end 1000 is not before the horizon", "write `-` for no end"]),
    (SERVER, "sink 0 0", "3 at 2", ["MODEL:12: kind = \"server\"", "`desk` is a server in the model, and here a sink.",
                                    "another model?"]),
    ("server 2", "server 17", "3 at 2", ["SERVERS is 17: integer, 1 to 16.", "BUSY is 2, SERVERS 17"]),
    ("server 2 5", "server 2 4097", "3 at 2", ["ROOM is 4097: integer, 0 to 4,096."]),
    ("server 2 5 4 8", "server 2 5 8 4", "3 at 2", ["LO and HI are 8 and 4: array of two integers, `1 <= lo <= hi"]),
    ("server 2 5 4 8 2 1", "server 2 5 4 8 1 1", "3 at 2",
     ["Jobs wait while a server is free: BUSY is 1, SERVERS 2."]),
    ("server 2 5 4 8 2 1", "server 2 5 4 8 17 1", "3 at 2",
     ["BUSY is 17, and at most 16 may be: the most servers."]),
    ("server 2 5 4 8 2 1 0", "server 2 5 4 8 2 4 0", "3 at 2", ["DONE is 4, and at most 3 may be: `handled`."]),
    ("handled 3 server", "handled 16385 server", "3 at 2",
     ["`handled` is 16385, and at most 16384 may be: the model's `limit`."]),
    ("next 3 drawn", "next 65 drawn", "3 at 2", ["`next` is 65, and at most 64 may be: 16 times `handled` + 1."]),
    ("drawn 2 handled 3", "drawn 65 handled 3", "3 at 2", ["`drawn` is 65"]),
    ("source 3 5 2", "source 3 5 101", "3 at 1", ["SENT is 101, and at most 100 may be: the `jobs` of the source."]),
    ("source 3 5 2", "source 0 5 2", "3 at 1", ["LO and HI are 0 and 5"]),
    ("router 0 9 1", "router 0 9 1001", "3 at 3", ["The weight of link 2 is 1001: it is 1 to 1,000."]),
    ("router 0 9 1", "router 1 9 1", "3 at 3", ["PASSED is 1, and at most 0 may be: `handled`."]),
    ("delay 0 9", "delay 0 1000001", "3 at 4", ["LO and HI are 0 and 1000001"]),
    ("sink 0 0", "sink 0 281474976710656", "3 at 5", ["STAY is 281474976710656", "281474976710655", "greatest sum"]),
    ("1.0.3", "2.0.3", "3 at 2", ["The job 2.0.3 has no source: station 2 is a server."]),
    ("1.0.3", "9.0.3", "3 at 2", ["station 9 is not there."]),
    ("1.0.3", "1.1000000.3", "3 at 2", ["a count that no source comes to: it is below 1,000,000"]),
    ("1.0.3", "1.0.1000", "3 at 2", ["The job 1.0.1000 was made at the horizon or later, which is 1000."]),
    (JOB, "13 2 2 3 job 1.0.5", "4 at 1", ["SNAPSHOT:9:", "before the front, which is 14: that is over already",
                                           "SNAPSHOT:8: 15 1 4 1 tick   (the message before it)"]),
    (JOB, "15 1 4 3 job 1.0.5", "4 at 1", ["Messages rise by time, then sender, then number"]),
    (SET, "2147483648 0 0 2 set servers 3", "4 at 3", ["Its time 2147483648 is too late: it is below 2,147,483,648."]),
    (JOB, "15 2 2 6 job 1.0.5", "4 at 1", ["Its receiver 6 is no station: they are 1 to 5."]),
    (JOB, "15 6 2 3 job 1.0.5", "4 at 1", ["Its sender 6 is no station: they are 1 to 5, and 0 the analyst."]),
    (JOB, "15 2 3 3 job 1.0.5", "4 at 1", ["SNAPSHOT:3: station 2", "(its sender)",
                                           "Its number 3 was not sent yet: `next` is 3."]),
    (SET, "80 0 256 2 set servers 3", "4 at 3", ["Its number 256 is no place in a list of decisions"]),
    (JOB, "15 2 2 3 job 5.0.5", "4 at 1", ["The job 5.0.5 has no source: station 5 is a sink."]),
    ("server 2 5 4 8 2 1 0 line 2 1.0.3 1.1.10", "server 2 5 4 8 0 1 0 line 0", "4 at 2",
     ["SNAPSHOT:3: station 2", "(its receiver)", "0 services end before this one, and 0 jobs are in service."]),
]


class Folder(unittest.TestCase):
    """Tests with a model and a snapshot."""

    def setUp(self):
        folder = tempfile.TemporaryDirectory()
        self.addCleanup(folder.cleanup)
        self.paths = {name: os.path.join(folder.name, name) for name in ("MODEL", "SNAPSHOT")}
        self.tables = read_tables()
        self.write(MODEL=MODEL.encode(), SNAPSHOT=SNAPSHOT.encode())

    def write(self, **texts):
        """Writes files by their names."""
        for name, data in texts.items():
            with open(self.paths[name], "wb") as file:
                file.write(data)

    def explained(self, said, *names):
        """Returns the explanation of an error line, with short paths; by default both files are named."""
        given = names or tuple(self.paths)
        files = explain.Files(*[self.paths[name] if name in given else None for name in self.paths])
        text = "\n".join(explain.explain(said, None, self.tables, files))
        for name, path in self.paths.items():
            text = text.replace(path, name)
        return text


class Mistakes(Folder):
    def test_each(self):
        for old, new, said, wanted in MISTAKES:
            with self.subTest(new=new):
                self.write(SNAPSHOT=spoiled(SNAPSHOT, old, new))
                text = self.explained(f"cloner: snapshot: refusal {said}")
                for part in wanted:
                    self.assertIn(part, text)
                self.assertNotIn(GONE, text)

    def test_a_long_file(self):
        self.write(SNAPSHOT=b"x" * 1_048_577)
        self.assertIn("has 1,048,577 bytes", self.explained("cloner: snapshot: refusal 1 at 0"))

    def test_an_empty_file(self):
        self.write(SNAPSHOT=b"")
        self.assertIn("SNAPSHOT ends before line 1. Here belongs the first line",
                      self.explained("cloner: snapshot: refusal 2 at 1"))

    def test_a_long_line_is_cut(self):
        self.write(SNAPSHOT=spoiled(SNAPSHOT, "1.0.3", "1.0." + "9" * 5000))
        text = self.explained("cloner: snapshot: refusal 2 at 3")
        self.assertIn("the greatest is 4,294,967,295", text)
        self.assertLess(len(text), 1000)

    def test_a_snapshot_that_was_changed_since(self):
        for said in ["2 at 1", "2 at 3", "2 at 7", "2 at 9", "2 at 12", "2 at 13", "6 at 0", "3 at 1", "3 at 2",
                     "3 at 99", "4 at 0", "4 at 3", "4 at 99"]:
            with self.subTest(said=said):
                self.assertIn(GONE, self.explained(f"cloner: snapshot: refusal {said}"))
        for data in (b"", b"hello", b"snapshot night\nstation\n", SNAPSHOT.encode()[:200]):
            self.write(SNAPSHOT=data)
            for said in ["6 at 0", "3 at 2", "4 at 1"]:
                with self.subTest(data=data, said=said):
                    self.assertIn(GONE, self.explained(f"cloner: snapshot: refusal {said}"))

    def test_a_model_that_was_changed_since(self):
        self.write(MODEL=b"lookahead = ")
        self.assertIn("as it is now is no TOML", self.explained("cloner: snapshot: refusal 3 at 2"))

    def test_files_that_are_not_named(self):
        self.assertIn("Give the files of the model and the snapshot",
                      self.explained("cloner: snapshot: refusal 3 at 2", "MODEL"))

    def test_no_such_refusal(self):
        for said in ["cloner: snapshot: refusal 5 at 0", "cloner: snapshot: refusal 7 at 1"]:
            with self.assertRaises(PlanningError):
                self.explained(said)

    def test_a_snapshot_that_cannot_be_read(self):
        os.remove(self.paths["SNAPSHOT"])
        self.assertIn("There is no file SNAPSHOT", self.explained("cloner: cannot read the snapshot"))

    def test_a_snapshot_that_is_too_long_to_write(self):
        self.assertIn("What to do: an earlier time after `--until`", self.explained("cloner: snapshot too long"))

    def test_a_page_without_the_forms(self):
        with self.assertRaises(PlanningError):
            Tables("nothing").snapshot_forms()


class Contents(Folder):
    def described(self):
        """Returns what the entry script prints with nothing on standard input."""
        status, output, errors = ended("explain", *self.paths.values())
        self.assertEqual((status, errors), (0, ""))
        return output.replace(self.paths["SNAPSHOT"], "SNAPSHOT").splitlines()

    def test_each_station(self):
        self.assertEqual(self.described(), [
            "`night` at 14, with its end at 90, after 2 lines of its trace:",
            "  `gate` has made 2 jobs, one every 3 to 5.",
            "  `desk` has 2 of 2 servers busy, for 4 to 8 each; 2 wait, with room for 5; 1 done, 0 lost.",
            "  `check` has passed on 0 jobs, by weights 9 1.",
            "  `wait` has passed on 0 jobs, holding each for 0 to 9.",
            "  `out` has got 0 jobs.",
            "  4 messages are pending, 1 of them sets:",
            "    at 80: desk servers 3"])

    def test_nothing_pending(self):
        self.write(SNAPSHOT=spoiled(SNAPSHOT.replace("end 90", "end -"), SNAPSHOT[SNAPSHOT.index("pending"):],
                                    "pending 0\ntrace 0\n"))
        lines = self.described()
        self.assertEqual(lines[0], "`night` at 14, without an end, after 0 lines of its trace:")
        self.assertEqual(lines[-1], "  0 messages are pending, no sets among them.")

    def test_a_wrong_line(self):
        self.write(SNAPSHOT=spoiled(SNAPSHOT, "pending 4", "pending 5"))
        self.assertEqual(self.described()[:2], ["SNAPSHOT:12: trace 2", "Here belongs message 4, counted from 0."])

    def test_a_script_is_no_snapshot(self):
        self.write(SNAPSHOT=b"fork fast from base\n")
        self.assertEqual(self.described(), [])


if __name__ == "__main__":
    unittest.main()
