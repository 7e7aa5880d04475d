"""plot: series and shares of small traces, with figures worked out by hand, and the pictures if there is matplotlib."""
import contextlib
import io
import os
import subprocess
import sys
import tempfile
import unittest

from samples import MODEL, SOURCES, TRACE

from cloner_planning.command_line import main
from cloner_planning.errors import PlanningError
from cloner_planning.series import CensusReader, Series, StationReader, band_of, read_series, shown, thin
from cloner_planning.shares import BINS, Shares
from cloner_planning.traces import Trace

try:
    import matplotlib
except ImportError:
    matplotlib = None

JOURNAL = "journal 1 1\n# front 20\nanalyst main\nfork fast from base\nlooks 0\n"


def trace_of(text):
    """Returns the branches of a trace."""
    return Trace(io.StringIO(text)).branches()


def series_of(station, what=None, names=(), text=TRACE):
    """Returns the figure that was read, and the series."""
    reader = StationReader(station, what)
    return reader.figure, read_series(trace_of(text), reader, names)


def shares_of(text, names=(), begin=0, stop=None):
    """Returns (branch, messages, messages that no earlier branch has) of each row."""
    shares = Shares(begin, stop)
    shares.read(trace_of(text), names)
    return [(row.branch, sum(row.handled), sum(row.own)) for row in shares.rows]


def logs(**branches_lines):
    """Returns a trace in which the messages of each branch come to a station `gate`.

    One word is one message; `5:n` comes at time 5.
    """
    parts = []
    for branch, words in branches_lines.items():
        parts.append(f"clone {branch}\n")
        for word in words.split():
            time, sent = word.split(":")
            parts.append(f"{time} gate gate 0 tick sent={sent}\n")
    return "".join(parts) + "report\n"


class TestSeries(unittest.TestCase):
    def test_line(self):
        base, fast = series_of("desk")[1]
        self.assertEqual((base.branch, base.end, base.points()), ("base", 15, [(5, 0), (8, 1), (9, 0)]))
        self.assertEqual((fast.branch, fast.end, fast.points()), ("fast", 13, [(5, 0), (8, 1), (9, 0)]))

    def test_busy(self):
        base, fast = series_of("desk", "busy")[1]
        self.assertEqual(base.points(), [(5, 1), (13, 0)])
        self.assertEqual(fast.points(), [(5, 1), (11, 0)])

    def test_stay(self):
        base, fast = series_of("out")[1]
        self.assertEqual(base.points(), [(11, 8), (15, 9)])
        self.assertEqual(fast.points(), [(11, 8), (13, 7)])

    def test_named_branches_in_the_order_of_their_names(self):
        self.assertEqual([one.branch for one in series_of("desk", None, ["fast", "base"])[1]], ["fast", "base"])

    def test_output_of_live(self):
        self.assertEqual([one.branch for one in series_of("desk", text=JOURNAL + TRACE)[1]], ["base", "fast"])

    def test_reads_no_further_than_needed(self):
        cut = TRACE.replace("13 out desk 3 job gate.1 got=2 stay=15", "no line of a trace")
        self.assertEqual(len(series_of("desk", None, ["base"], cut)[1]), 1)
        with self.assertRaisesRegex(PlanningError, "line 19 of the trace"):
            series_of("desk", None, ["fast"], cut)

    def test_refusals(self):
        for station, what, names, words in (
                ("gate", None, (), "gate is a source: plot shows servers"),
                ("out", "busy", (), "out is a sink, which has no busy: choose stay"),
                ("desk", "stay", (), "desk is a server, which has no stay: choose line or busy"),
                ("desk", None, ("slow",), "no branch slow")):
            with self.assertRaisesRegex(PlanningError, words):
                series_of(station, what, names)

    def test_thirteen_branches(self):
        text = "".join(f"clone c{number}\n3 gate gate 0 tick sent=1\n" for number in range(13)) + "report\n"
        with self.assertRaisesRegex(PlanningError, "more than 12 branches"):
            series_of("desk", text=text)
        self.assertEqual(len(series_of("desk", None, ["c12", "c0"], text)[1]), 2)


class TestShown(unittest.TestCase):
    def test_steps_begin_and_end(self):
        base = series_of("desk", "busy")[1][0]
        self.assertEqual(shown(base, "busy", 0, 20, 100), [(0, 0), (5, 1), (13, 0), (15, 0)])
        self.assertEqual(shown(base, "busy", 7, 12, 100), [(7, 1), (12, 1)])
        self.assertEqual(shown(base, "busy", 5, 12, 100), [(5, 1), (12, 1)])
        self.assertEqual(shown(base, "busy", 17, 19, 100), [(17, 0), (17, 0)])

    def test_stays_within_the_span(self):
        base = series_of("out")[1][0]
        self.assertEqual(shown(base, "stay", 11, 15, 100), [(11, 8)])

    def test_the_last_value_of_a_time_holds(self):
        series = Series("base")
        for time, value in ((3, 1), (3, 2), (4, 2), (6, 0)):
            series.become(time, value)
        self.assertEqual(series.points(), [(3, 2), (6, 0)])

    def test_thin_keeps_first_least_greatest_and_last(self):
        points = [(0, 5), (1, 7), (2, 6), (3, 1), (4, 2), (5, 3), (60, 9), (99, 0)]
        self.assertEqual(thin(points, 0, 100, 10), [(0, 5), (1, 7), (3, 1), (5, 3), (60, 9), (99, 0)])


class TestShares(unittest.TestCase):
    def test_the_sum_is_that_of_the_report(self):
        self.assertEqual(shares_of(TRACE), [("base", 8, 8), ("fast", 9, 5)])

    def test_named_branches_are_compared_with_all_earlier_ones(self):
        self.assertEqual(shares_of(TRACE, ["fast"]), [("fast", 9, 5)])
        with self.assertRaisesRegex(PlanningError, "no branch slow"):
            shares_of(TRACE, ["slow"])

    def test_a_branch_of_a_branch(self):
        text = logs(base="1:1 2:2 3:3 4:4", fork="1:1 2:2 3:7 4:8", leaf="1:1 2:2 3:7 4:9", other="1:1 2:2 3:3 4:9")
        self.assertEqual(shares_of(text), [("base", 4, 4), ("fork", 4, 2), ("leaf", 4, 1), ("other", 4, 1)])

    def test_equal_and_shorter_branches_have_nothing_alone(self):
        text = logs(base="1:1 2:2 3:3", same="1:1 2:2 3:3", brief="1:1 2:2", none="")
        self.assertEqual(shares_of(text), [("base", 3, 3), ("same", 3, 0), ("brief", 2, 0), ("none", 0, 0)])

    def test_longer_branches(self):
        text = logs(base="1:1 2:2", longer="1:1 2:2 3:3", longest="1:1 2:2 3:3 4:4")
        self.assertEqual(shares_of(text), [("base", 2, 2), ("longer", 3, 1), ("longest", 4, 1)])

    def test_equal_lines_at_another_place_are_not_shared(self):
        self.assertEqual(shares_of(logs(base="1:1 2:2 3:3", other="2:2 3:3")), [("base", 3, 3), ("other", 2, 2)])

    def test_span(self):
        self.assertEqual(shares_of(TRACE, begin=9, stop=13), [("base", 2, 2), ("fast", 3, 2)])

    def test_stretches_grow(self):
        times = [0, BINS - 1, BINS, 5 * BINS, 5 * BINS + 1]
        shares = Shares()
        shares.read(trace_of(logs(base=" ".join(f"{time}:{place}" for place, time in enumerate(times)))), ())
        counted = {number: count for number, count in enumerate(shares.rows[0].handled) if count}
        self.assertEqual(shares.width, 8)
        self.assertEqual(counted, {0: 1, (BINS - 1) // 8: 1, BINS // 8: 1, 5 * BINS // 8: 2})


class Census(unittest.TestCase):
    def test_jobs_in_the_network(self):
        base, fast = read_series(Trace(io.StringIO(TRACE)).branches(), CensusReader(), ())
        self.assertEqual(base.points(), [(3, 1), (6, 2), (11, 1), (15, 0)])
        self.assertEqual((fast.points()[-1], fast.sets, base.sets), ((13, 0), [8], []))

    def test_a_lost_job_leaves(self):
        text = ("clone base\n1 gate gate 0 tick sent=1\n2 desk gate 1 job gate.0 busy=0 wait=0 done=0 lost=1\n")
        (base,) = read_series(Trace(io.StringIO(text)).branches(), CensusReader(), ())
        self.assertEqual(base.points(), [(1, 1), (2, 0)])

    def test_bands(self):
        seeds = []
        for steps in (((0, 1), (4, 3)), ((2, 5), (8, 0))):
            one = Series("base")
            for time, value in steps:
                one.become(time, value)
            seeds.append(one)
        band = band_of(seeds, 0, 10, 5)
        self.assertEqual((band.times, band.least, band.greatest), ([0, 2, 4, 6, 8], [0, 1, 3, 3, 0], [1, 5, 5, 5, 3]))
        self.assertEqual(band.mean, [0.5, 3.0, 4.0, 4.0, 1.5])


class TestPlot(unittest.TestCase):
    def setUp(self):
        self.folder = tempfile.TemporaryDirectory()
        self.addCleanup(self.folder.cleanup)
        self.trace = self.file("trace", TRACE)
        self.model = self.file("model", MODEL)

    def file(self, name, text=None):
        path = os.path.join(self.folder.name, name)
        if text is not None:
            with open(path, "w", encoding="ascii") as file:
                file.write(text)
        return path

    def plot(self, *words):
        """Returns the status, what went to standard output, and what to standard error."""
        output, errors = io.TextIOWrapper(io.BytesIO()), io.StringIO()
        with contextlib.redirect_stdout(output), contextlib.redirect_stderr(errors):
            status = main(["plot", *words])
        return status, output.buffer.getvalue(), errors.getvalue()

    def plot_apart(self, *words, before="", given=None):
        """Returns the same of a process of its own, after these statements and with this standard input."""
        code = (f"import sys; {before}sys.path.insert(0, {SOURCES!r}); "
                "from cloner_planning.command_line import main; sys.exit(main(sys.argv[1:]))")
        done = subprocess.run([sys.executable, "-c", code, "plot", *words], input=given, stdout=subprocess.PIPE,
                              stderr=subprocess.PIPE)
        return done.returncode, done.stdout, done.stderr.decode()

    def test_without_matplotlib(self):
        status, output, errors = self.plot_apart(self.trace, "desk", before="sys.modules['matplotlib'] = None; ")
        self.assertEqual((status, output), (2, b""))
        self.assertIn("apt-get install python3-matplotlib", errors)
        self.assertEqual(errors.count("\n"), 1)

    @unittest.skipUnless(matplotlib, "no matplotlib")
    def test_svg_is_made_again_byte_for_byte(self):
        for words in (["desk", "--what", "busy", "--model", self.model], ["out"], ["--alone"]):
            status, first, errors = self.plot(self.trace, *words)
            self.assertEqual((status, errors), (0, ""))
            self.assertEqual(self.plot_apart(self.trace, *words)[1], first)
            self.assertIn(b"<svg", first)
            self.assertIn(b">base<", first)
            self.assertNotIn(b"<dc:date>", first)

    @unittest.skipUnless(matplotlib, "no matplotlib")
    def test_standard_input_and_options_between_the_words(self):
        words = self.plot(self.trace, "desk", "base", "fast", "--from", "3", "--to", "12")
        given = (JOURNAL + TRACE).encode()
        self.assertEqual(self.plot_apart("-", "--from", "3", "desk", "base", "--to=12", "fast", given=given), words)
        self.assertEqual(words[0], 0)

    @unittest.skipUnless(matplotlib, "no matplotlib")
    def test_files(self):
        for name, head in (("a.png", b"\x89PNG"), ("a.SVG", b"<?xml")):
            self.assertEqual(self.plot(self.trace, "desk", "--output", self.file(name)), (0, b"", ""))
            with open(self.file(name), "rb") as file:
                self.assertTrue(file.read().startswith(head))

    @unittest.skipUnless(matplotlib, "no matplotlib")
    def test_a_station_without_messages(self):
        text = logs(base="1:1")
        self.assertIn("no message at a station desk", self.plot(self.file("short", text), "desk")[2])
        self.assertEqual(self.plot(self.file("short", text), "desk", "--solo", "--model", self.model)[0], 0)

    @unittest.skipUnless(matplotlib, "no matplotlib")
    def test_panels_bands_census_and_titles(self):
        slower = self.file("slower", TRACE.replace("15 out desk 3 job gate.1 got=2 stay=17",
                                                   "19 out desk 3 job gate.1 got=2 stay=21"))
        for words, part in ((["desk", "--panels"], b">fast<"), (["--census"], b"Jobs in the network"),
                            (["--census", "base", "--band", slower], b"least and greatest of 2 seeds"),
                            (["desk", "--band", slower, "--panels"], b">fast<"),
                            (["desk", "--title", "Lines of Monday"], b"Lines of Monday")):
            status, output, errors = self.plot(self.trace, *words)
            self.assertEqual((status, errors), (0, ""), words)
            self.assertIn(part, output)
        path = self.file("a.pdf")
        self.assertEqual(self.plot(self.trace, "desk", "--output", path)[0], 0)
        with open(path, "rb") as file:
            self.assertTrue(file.read().startswith(b"%PDF"))
        for words, part in ((["out", "--band", slower], "not stay"),
                            (["--alone", "--panels"], "--alone goes with none"),
                            (["--census", "--what", "line"], "exclude each other"),
                            (["desk", "--band", self.file("none")], "cannot read the trace")):
            status, _, errors = self.plot(self.trace, *words)
            self.assertEqual((status, errors.count("\n")), (2, 1), words)
            self.assertIn(part, errors)

    @unittest.skipUnless(matplotlib, "no matplotlib")
    def test_eight_branches_differ_in_grey(self):
        from cloner_planning.pictures import MARKERS, look_of
        looks = [look_of(place, "x") for place in range(8)]
        self.assertEqual(len({(str(look["linestyle"]), look["marker"]) for look in looks}), 8)
        self.assertEqual(len({str(look["linestyle"]) for look in looks}), 8)
        self.assertEqual(len(set(MARKERS)), 12)

    @unittest.skipUnless(matplotlib, "no matplotlib")
    def test_refusals(self):
        for words, part in ((["desk", "--output", "a.gif"], ".svg, .png or .pdf"),
                            ([], "needs a station, --census or --alone"),
                            (["desk", "--from", "20"], "no time is left"), (["--alone", "--from", "20"], "no message"),
                            (["till", "--model", self.model], "the model has no station till"),
                            (["--alone", "--what", "line"], "exclude each other")):
            status, output, errors = self.plot(self.trace, *words)
            self.assertEqual((status, output), (2, b""))
            self.assertIn(part, errors)
            self.assertEqual(errors.count("\n"), 1)


if __name__ == "__main__":
    unittest.main()
