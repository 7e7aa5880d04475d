"""check: warnings and estimates of small models, with rates worked out by hand."""
import contextlib
import io
import os
import tempfile
import unittest

from samples import DESK, EXAMPLES, GATE, OUT, model_text

from cloner_planning.check import size, warnings_of
from cloner_planning.check_flow import Clock, Flow, initial, messages, time_of_limit, with_way_out
from cloner_planning.check_study import Study
from cloner_planning.command_line import main
from cloner_planning.errors import PlanningError
from cloner_planning.models import parse_model
from cloner_planning.places import Places
from cloner_planning.scripts import parse_script

# the total `alone` of the report that cloner writes for an example
ALONE = {"clinic": 104362, "emergency": 68753, "calls": 41479, "factory": 118358, "road": 38963, "motorway": 99534,
         "shop": 1656}
def study_of(text, script=""):
    """Returns the study of a model and a script."""
    return Study(parse_model(text), Places("m", text.encode()), parse_script(script, "s"))


def warned(text, script="", about=""):
    """Returns the warnings that have a text, each as (m or s, line, text)."""
    return [("s" if warn.of_script else "m", warn.line, warn.text)
            for warn in warnings_of(study_of(text, script)) if about in warn.text]


SIMPLE = model_text(GATE, DESK, OUT)


class Reach(unittest.TestCase):
    def test_nothing_is_found_in_a_simple_model(self):
        self.assertEqual(warned(SIMPLE), [])

    def test_what_nothing_reaches(self):
        text = model_text(GATE, DESK, ("alone", "delay", {"out": 1}), ("shut", "source", {"late": 1}, "jobs = 0"),
                          ("late", "delay", {"out": 1}), ("never", "source", {"out": 1}, "every = [1000, 2000]"), OUT)
        self.assertEqual([(line, said.split(":")[0]) for _, line, said in warned(text)], [
            (17, "nothing reaches alone"), (25, "source shut has jobs = 0, so it makes none"),
            (28, "nothing reaches late"),
            (36, "source never makes its first job at 1000 or later, and the horizon is 1000")])

    def test_jobs_that_never_leave(self):
        text = model_text(("gate", "source", {"ring": 1}), ("ring", "delay", {"back": 1}),
                          ("back", "router", {"ring": 1}))
        self.assertEqual(with_way_out(parse_model(text)), set())
        (found,) = warned(text)
        self.assertEqual(found[:2], ("m", 10))
        self.assertIn("no way leads to a sink from ring, back", found[2])
        study = study_of(text)
        self.assertAlmostEqual(messages(study.courses[0], study.model.station("ring")), 1000 / 3, places=2)


class Dry(unittest.TestCase):
    def said(self, horizon, script=""):
        """Returns what is warned of a source with 10 jobs, 2 to 4 units apart."""
        return warned(model_text((*GATE, "jobs = 10"), DESK, OUT, horizon=horizon), script, "runs dry")

    def test_surely_perhaps_or_not(self):
        ((place, line, text),) = self.said(41)
        self.assertEqual((place, line), ("m", 7))
        self.assertIn("source gate surely runs dry: its 10 jobs are made by 40 at the latest, and the horizon is 41",
                      text)
        self.assertIn("perhaps runs dry: by the mean its 10 jobs are made by about 30, ", self.said(40)[0][2])
        self.assertIn("perhaps", self.said(31)[0][2])
        self.assertEqual(self.said(30), [])

    def test_in_a_branch(self):
        script = ("fork rush from base\nset rush at 10 gate every 1 1\n"
                  "fork slow from base\nset slow at 10 gate every 9 9\n")
        ((place, line, text),) = self.said(30, script)
        self.assertEqual((place, line), ("s", 2))
        # at most 13 passes before the first job after the set; then one each unit; the first two came before 10 surely
        self.assertIn("in branch rush: source gate surely runs dry: its 10 jobs are made by 20 at the latest", text)

    def test_the_end_of_a_branch_counts(self):
        found = self.said(35, "fork brief from base\nset brief at 3 gate every 2 4\nend brief at 20\n")
        self.assertEqual([text.split(":")[0] for _, _, text in found], ["source gate perhaps runs dry"])

    def test_bounds_of_a_clock(self):
        clock = Clock(5, (2, 4), 100)
        clock.bound(0, 10, (2, 4))  # surely two jobs by 9, at 4 and 8; the next one at 11 or up to 13, or already at 10
        self.assertEqual((clock.left_surely, clock.latest, clock.earliest), (3, 13, 10))
        clock.bound(10, 12, (9, 9))  # perhaps none in between; one at 11 would draw 20
        self.assertEqual((clock.left_surely, clock.latest, clock.earliest), (3, 20, 12))
        clock.bound(12, 90, (1, 1))
        self.assertEqual(clock.surely_dry, 22)


class Effects(unittest.TestCase):
    def lines(self, script, text=SIMPLE):
        """Returns the lines of the sets without effect, each with its reason."""
        found = warned(text, script, "this set has no effect")
        self.assertTrue(all(place == "s" for place, _, _ in found))
        return {line: said.split(": ", 1)[1] for _, line, said in found}

    def test_the_same_value(self):
        script = ("set base at 5 desk servers 2\nset base at 7 desk servers 3\n"
                  "set base at 9 desk servers 3\nset base at 6 desk servers 1\n")
        self.assertEqual(self.lines(script),
                         {1: "desk has this value already at 5", 3: "desk has this value already at 9"})

    def test_a_branch_has_what_it_inherits(self):
        script = ("set base at 5 desk servers 3\nfork b from base\n"
                  "set b at 9 desk servers 3\nset b at 4 desk servers 3\n")
        self.assertEqual(self.lines(script), {3: "desk has this value already at 9"})

    def test_it_may_have_an_effect_in_a_fork_alone(self):
        self.assertEqual(self.lines("set base at 5 desk room 9\nfork b from base\nset base at 4 desk room 9\n"), {})

    def test_at_the_end_of_a_branch(self):
        script = "fork b from base\nset b at 50 desk room 1\nset b at 40 desk room 2\nend b at 50\n"
        self.assertEqual(self.lines(script), {2: "its time is not before the end of the branch, 50"})
        self.assertEqual(self.lines("set base at 1000 desk room 1\n"), {1: "its time is not before the horizon, 1000"})

    def test_twice_at_one_time(self):
        script = ("set base at 5 desk room 1\nset base at 5 desk room 2\n"
                  "set base at 6 desk servers 9\nset base at 6 desk servers 2\n")
        self.assertEqual(self.lines(script), {1: "line 2 sets it again for the same time"})

    def test_nothing_reaches_the_station(self):
        text = model_text(GATE, DESK, ("alone", "delay", {"out": 1}), OUT)
        self.assertEqual(self.lines("set base at 5 alone hold 1 1\n", text), {1: "nothing reaches alone"})

    def test_the_only_link(self):
        text = model_text(("gate", "source", {"way": 1}), ("way", "router", {"out": 1}), OUT)
        self.assertEqual(self.lines("set base at 5 way weight 1 7\n", text), {1: "way has one link alone"})

    def test_a_door_that_was_closed_cannot_be_opened(self):
        script = "set base at 100 gate every 1000000 1000000\nset base at 200 gate every 2 4\n"
        reason = self.lines(script)[2]
        self.assertEqual(reason, "the source's next job is settled by then, for 1000100 or later")
        course = study_of(SIMPLE, script).courses[0]
        self.assertEqual(course.stretches[-1].arrivals["gate"], 0)

    def test_a_first_job_at_the_time_of_a_set(self):
        text = model_text((*GATE, "every = [480, 480]"), DESK, OUT)
        self.assertEqual(self.lines("set base at 480 gate every 3 6\n", text), {})

    def test_a_source_that_is_dry(self):
        text = model_text((*GATE, "jobs = 10"), DESK, OUT)
        self.assertEqual(self.lines("set base at 50 gate every 1 1\n", text),
                         {1: "all jobs of the source are made by 40"})


class Routers(unittest.TestCase):
    def test_unlike_servers(self):
        ways = {"fast": 1, "slow": 1}
        slow = ("slow", "server", {"out": 1}, "service = [4, 7]")
        text = model_text(("gate", "source", {"split": 1}), ("split", "router", ways),
                          ("fast", "server", {"out": 1}), slow, OUT)
        ((place, line, said),) = warned(text, about="not alike")
        self.assertEqual((place, line), ("m", 10))
        self.assertIn("fast (servers 2, service 4 to 6), slow (servers 2, service 4 to 7)", said)
        self.assertIn("one line before unequal machines cannot be said", said)

    def test_a_server_before_the_router_is_no_way_beside_the_others(self):
        text = model_text(("gate", "source", {"desk": 1}), ("desk", "server", {"split": 1}),
                          ("split", "router", {"desk": 1, "slow": 1}),
                          ("slow", "server", {"out": 1}, "service = [4, 7]"), OUT)
        self.assertEqual(warned(text, about="not alike"), [])

    def test_like_servers_and_a_server_after_the_other(self):
        ways = {"one": 1, "two": 1}
        for one, two in [({"out": 1}, ()), ({"two": 1}, ("service = [4, 7]",))]:
            text = model_text(("gate", "source", {"split": 1}), ("split", "router", ways), ("one", "server", one),
                              ("two", "server", {"out": 1}, *two), OUT)
            self.assertEqual(warned(text, about="not alike"), [])


class Rates(unittest.TestCase):
    def rates(self, text):
        """Returns what arrives at each station of a model, per unit of time."""
        model = parse_model(text)
        made = {station.name: 2 / sum(station.every) for station in model.stations if station.kind == "source"}
        found = Flow(model).arrivals(initial(model), made)
        return {station.name: rate for station, rate in zip(model.stations, found)}

    def test_a_way_back(self):
        # a quarter comes back, so 4/3 of the third of a job that comes per unit of time pass the delay
        text = model_text(("gate", "source", {"loop": 1}), ("loop", "delay", {"check": 1}),
                          ("check", "router", {"out": 3, "loop": 1}), OUT)
        rates = self.rates(text)
        self.assertAlmostEqual(rates["loop"], 4 / 9, places=5)
        self.assertAlmostEqual(rates["out"], 1 / 3, places=5)

    def test_a_full_server_passes_on_what_it_can(self):
        rates = self.rates(model_text(GATE, ("desk", "server", {"out": 1}, "servers = 1"), OUT))
        self.assertAlmostEqual(rates["desk"], 1 / 3)
        self.assertAlmostEqual(rates["out"], 1 / 5)

    def test_by_turn_and_several_links_to_one_station(self):
        text = model_text(("gate", "source", {"split": 1}), ("split", "router", {"a": 5, "b": 1}, 'by = "turn"'),
                          ("a", "sink", {}), ("b", "sink", {}))
        self.assertAlmostEqual(self.rates(text)["a"], 1 / 6)
        text = text.replace('{ to = "b"', '{ to = "a"')
        self.assertAlmostEqual(self.rates(text)["a"], 1 / 3)

    def test_an_overload(self):
        text = model_text(GATE, ("desk", "server", {"out": 1}, "servers = 1"), OUT)
        self.assertEqual(warned(text), [
            ("m", 10, "server desk gets 167 per cent of the work that it can do, from 0 to 1000: "
                      "its line grows until the room is full, then jobs are lost")])

    def test_nearly_full(self):
        text = model_text(GATE, ("desk", "server", {"out": 1}, "service = [5, 7]"), OUT)
        self.assertIn("100 per cent", warned(text)[0][2])
        self.assertIn("near 100 per cent the line grows long", warned(text)[0][2])

    def test_overloads_of_branches_are_reported_once(self):
        script = ("fork one from base\nset one at 400 desk servers 1\nset one at 500 desk servers 2\n"
                  "fork two from one\nset two at 800 desk room 6\n")
        self.assertEqual(warned(SIMPLE, script), [
            ("s", 2, "in branches one, two: server desk gets 167 per cent of the work that it can do, from 400 to 500: "
                     "its line grows until the room is full, then jobs are lost")])

    def test_part_of_a_longer_overload_is_not_reported_again(self):
        text = model_text(GATE, ("desk", "server", {"out": 1}, "servers = 1"), OUT)
        self.assertEqual(len(warned(text, "fork b from base\nset b at 500 desk servers 3\n")), 1)

    def test_a_server_that_is_closed_is_no_overload(self):
        self.assertEqual(warned(SIMPLE, "set base at 500 desk service 1000000 1000000\n"), [])


class Sizes(unittest.TestCase):
    def test_messages_and_the_limit(self):
        text = model_text((*GATE, "every = [4, 4]"), DESK, OUT, top="limit = 400\n")
        study = study_of(text, "set base at 3 desk room 4\n")
        course, desk = study.courses[0], study.model.station("desk")
        self.assertAlmostEqual(messages(course, desk), 501, places=2)
        self.assertAlmostEqual(messages(course, study.model.station("gate")), 250, places=2)
        self.assertAlmostEqual(time_of_limit(course, desk, 400), 800, delta=1)
        ((place, line, said),) = warned(text)
        self.assertEqual((place, line), ("m", 3))
        self.assertRegex(said, r"\Astation desk would handle about 500 messages, "
                               r"and the limit is 400: met at about (800|799)\Z")

    def test_near_the_limit(self):
        text = model_text((*GATE, "every = [4, 4]"), DESK, OUT, top="limit = 510\n")
        self.assertEqual(warned(text)[0][2], "station desk would handle about 500 messages, near the limit of 510")

    def test_a_limit_that_only_a_branch_meets(self):
        # 250 up to 500, and from there on one job comes every 2 units and two servers do one every 2.5 units
        text = model_text((*GATE, "every = [4, 4]"), DESK, OUT, top="limit = 600\n")
        said = warned(text, "fork b from base\nset b at 500 gate every 2 2\n", "limit")[0][2]
        self.assertEqual(said, "station desk would handle about 700 messages in branch b, "
                               "and the limit is 600: met at about 888")

    def test_size(self):
        self.assertEqual([size(999), size(1500), size(2_340_000), size(5e12)],
                         ["999 bytes", "1.5 KB", "2.3 MB", "5000.0 GB"])

    def test_reports_of_the_examples(self):
        for name, alone in ALONE.items():
            with self.subTest(name=name):
                path = os.path.join(EXAMPLES, name)
                with open(path + ".toml", encoding="utf-8") as model, open(path + ".txt", encoding="ascii") as script:
                    study = study_of(model.read(), script.read())
                total = sum(messages(course, station) for course in study.courses for station in study.model.stations)
                self.assertAlmostEqual(total / alone, 1, delta=0.03)


class Entry(unittest.TestCase):
    def ended(self, text, script=None):
        """Returns status and output of check."""
        with tempfile.TemporaryDirectory() as folder, contextlib.redirect_stdout(io.StringIO()) as output:
            paths = []
            for name, data in (("MODEL", text), ("SCRIPT", script)):
                if data is not None:
                    paths.append(os.path.join(folder, name))
                    with open(paths[-1], "w", encoding="utf-8") as file:
                        file.write(data)
            with contextlib.redirect_stderr(io.StringIO()) as errors:
                status = main(["check", *paths])
        return status, output.getvalue().replace(folder + os.sep, ""), errors.getvalue().replace(folder + os.sep, "")

    def test_nothing_found(self):
        status, output, _ = self.ended(SIMPLE)
        self.assertEqual(status, 0)
        lines = output.split("\n")
        self.assertEqual(lines[:2], ["nothing found", "estimate by mean rates alone, without a run:"])
        self.assertIn("  branches  1", lines)
        self.assertIn("  messages  about 1,333 in all branches, 1,333 in base, at most 1,333 in one (base)", lines)
        self.assertIn("  output    about 1,339 lines, 67.0 KB to 100.5 KB", lines)
        self.assertRegex(output, r"\n  desk +server +667 +83% +83% base, 667 base\n")

    def test_warnings_have_file_and_line(self):
        status, output, _ = self.ended(SIMPLE.replace("servers = 2", "servers = 1"), "set base at 5 desk servers 1\n")
        self.assertEqual(status, 1)
        self.assertTrue(output.startswith("MODEL:10: warning: server desk gets 167 per cent"), output)
        self.assertIn("\nSCRIPT:1: warning: this set has no effect: ", output)

    def test_what_cloner_would_refuse(self):
        for script in ["set base at 5 till room 1\n", "set base at 5 gate room 1\n", "set base at 5 desk\n",
                       "set b at 5 desk room 1\n"]:
            status, output, errors = self.ended(SIMPLE, script)
            self.assertEqual((status, output), (2, ""))
            self.assertIn("SCRIPT: line 1: ", errors)
        self.assertEqual(self.ended("horizon = 5\n")[0], 2)

    def test_what_a_router_by_turn_does_not_take(self):
        text = model_text(("gate", "source", {"split": 1}), ("split", "router", {"out": 1}, 'by = "turn"'), OUT)
        with self.assertRaises(PlanningError):
            study_of(text, "set base at 5 split weight 1 3\n")


if __name__ == "__main__":
    unittest.main()
