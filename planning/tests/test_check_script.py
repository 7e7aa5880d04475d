"""check: traps of scripts, each in a small script, and the same script without the trap."""
import unittest

from samples import DESK, GATE, OUT, model_text

from cloner_planning.check import warnings_of
from cloner_planning.check_study import Study
from cloner_planning.models import parse_model
from cloner_planning.places import Places
from cloner_planning.scripts import parse_script

SIMPLE = model_text(GATE, DESK, OUT)


def warned(script, about, text=SIMPLE):
    """Returns place, line and text of the warnings that have a text."""
    study = Study(parse_model(text), Places("m", text.encode()), parse_script(script, "s"))
    return [("s" if warn.of_script else "m", warn.line, warn.text) for warn in warnings_of(study) if about in warn.text]


class SetsAfterForks(unittest.TestCase):
    ABOUT = "comes after the fork"

    def test_a_set_that_a_fork_does_not_have(self):
        (found,) = warned("fork a from base\nset a at 9 desk room 6\nset base at 5 desk room 7\n", self.ABOUT)
        self.assertEqual(found[:2], ("s", 3))
        self.assertIn("the fork of a from base (line 1), which does not have it", found[2])

    def test_all_forks_are_named(self):
        script = "fork a from base\nset a at 9 desk room 6\nfork b from base\nset b at 9 desk room 8\n"
        (found,) = warned(script + "set base at 5 desk room 7\n", self.ABOUT)
        self.assertIn("the fork of a, b from base (line 1), which do not have it", found[2])

    def test_a_set_before_the_fork_or_said_there_too(self):
        for script in ("set base at 5 desk room 7\nfork a from base\nset a at 9 desk room 6\n",
                       "fork a from base\nset a at 5 desk room 7\nset base at 5 desk room 9\n"):
            self.assertEqual(warned(script, self.ABOUT), [])


class SameBranches(unittest.TestCase):
    def test_a_fork_without_decisions(self):
        (found,) = warned("fork a from base\n", "no decision of its own")
        self.assertEqual(found, ("s", 1, "branch a has no decision of its own: up to here it is the same as base"))
        self.assertEqual(warned("fork a from base\nend a at 9\n", "no decision of its own"), [])
        self.assertEqual(warned("fork a from base\nset a at 9 desk room 6\n", "no decision of its own"), [])

    def test_two_branches_with_the_same_decisions(self):
        script = ("fork a from base\nset a at 9 desk room 6\nset a at 5 gate every 2 3\n"
                  "fork b from base\nset b at 5 gate every 2 3\nset b at 9 desk room 6\n")
        (found,) = warned(script, "the same decisions")
        self.assertEqual(found[:2], ("s", 4))
        self.assertIn("branch b has the same decisions as a", found[2])
        for other in ("set b at 10 desk room 6", "set b at 9 desk room 7", "set b at 9 desk servers 6"):
            self.assertEqual(warned(script.replace("set b at 9 desk room 6", other), "the same decisions"), [])
        self.assertEqual(warned(script + "end b at 90\n", "the same decisions"), [])


class StoppedServers(unittest.TestCase):
    ABOUT = "opened again"

    def test_a_server_that_is_stopped_and_opened(self):
        script = "fork a from base\nset a at 100 desk service 1000000 1000000\nset a at 200 desk service 4 6\n"
        (found,) = warned(script, self.ABOUT)
        self.assertEqual(found[:2], ("s", 2))
        self.assertIn("in branch a: server desk is stopped at 100 by a service of 1000000", found[2])
        self.assertIn("and opened again at 200 (line 3)", found[2])

    def test_a_model_that_begins_stopped(self):
        text = model_text(GATE, (*DESK, "service = [1000000, 1000000]"), OUT)
        (found,) = warned("set base at 200 desk service 4 6\n", self.ABOUT, text)
        self.assertEqual(found[:2], ("m", 14))
        self.assertEqual(warned("set base at 0 desk service 4 6\n", self.ABOUT, text), [])

    def test_a_stop_for_good_and_a_breakdown(self):
        for script in ("set base at 100 desk service 1000000 1000000\n",
                       "set base at 100 desk service 60 60\nset base at 160 desk service 4 6\n"):
            self.assertEqual(warned(script, self.ABOUT), [])


class SharedStreams(unittest.TestCase):
    def test_a_server_that_picks_a_link_by_chance(self):
        text = model_text(GATE, ("desk", "server", {"out": 3, "gone": 1}), OUT, ("gone", "sink", {}))
        (found,) = warned("", "picks a link by chance", text)
        self.assertEqual(found[:2], ("m", 15))
        split = model_text(GATE, ("desk", "server", {"split": 1}), ("split", "router", {"out": 3, "gone": 1}), OUT,
                           ("gone", "sink", {}))
        self.assertEqual(warned("", "picks a link by chance", split), [])


if __name__ == "__main__":
    unittest.main()
