"""The reader of scripts: the grammar, and what each branch has of the decisions."""
import os
import tempfile
import unittest

import samples  # noqa: F401  (puts the package on the path)
from cloner_planning.errors import PlanningError
from cloner_planning.scripts import Decision, parse_script, read_script

PLANS = """# two planners
set base at 5 desk room 9
fork fast from base
set fast at 8 desk service 2 2\r
analyst ben

set base at 3 gate every 1 4
\tfork   faster \t from fast
set fast at 0 split weight 2 1000
end fast at 9
analyst main
look faster desk
set faster at 12 desk servers 2"""


class Grammar(unittest.TestCase):
    def test_the_decisions_are_in_the_order_of_the_lines(self):
        decisions = parse_script(PLANS).decisions
        self.assertEqual([decision.line for decision in decisions], [2, 3, 4, 7, 8, 9, 10, 12, 13])
        self.assertEqual(decisions[1], Decision(3, "main", "fork", "base", new="fast", old="base"))
        self.assertEqual(decisions[2], Decision(4, "main", "set", "fast", at=8, station="desk", parameter="service",
                                                values=(2, 2)))
        self.assertEqual(decisions[6], Decision(10, "ben", "end", "fast", at=9))
        self.assertEqual(decisions[7], Decision(12, "main", "look", "faster", station="desk"))
        self.assertEqual(decisions[8].values, (2,))

    def test_a_line_that_breaks_the_grammar_is_named(self):
        for line in ["fork a of base", "fork a from", "set base at 8 desk serv 2", "set base at 8 desk service 2",
                     "end base 9", "set base at 8 desk room 1 # why", "set base at 08 desk room 1",
                     "set base at 4294967296 desk room 1", "set base at -8 desk room 1", "look base",
                     "look Base desk", "analyst", "analyst ben carla", "fork abcdefghijklmnopq from base",
                     "fork a\x0bfrom base", "end base at 9\rx"]:
            with self.assertRaisesRegex(PlanningError, "^script: line 2: ", msg=line):
                parse_script("# here\n" + line + "\n")

    def test_a_file(self):
        with tempfile.TemporaryDirectory() as folder:
            path = os.path.join(folder, "script")
            with open(path, "wb") as file:
                file.write(PLANS.encode())
            self.assertEqual(read_script(path).decisions, parse_script(PLANS).decisions)
            with open(path, "wb") as file:
                file.write(b"# one\n# caf\xc3\xa9\n")
            with self.assertRaisesRegex(PlanningError, "line 2"):
                read_script(path)
            with self.assertRaisesRegex(PlanningError, "cannot read"):
                read_script(folder)


class Branches(unittest.TestCase):
    def test_a_fork_takes_over_the_sets_that_are_there_at_its_line(self):
        script = parse_script(PLANS)
        self.assertEqual(script.branches(), ["base", "fast", "faster"])
        self.assertEqual([script.parent(name) for name in script.branches()], [None, "base", "fast"])
        self.assertEqual([decision.line for decision in script.sets("base")], [2, 7])
        self.assertEqual([decision.line for decision in script.sets("fast")], [2, 4, 9])
        self.assertEqual([decision.line for decision in script.sets("faster")], [2, 4, 13])

    def test_a_fork_takes_over_no_end(self):
        script = parse_script(PLANS)
        self.assertEqual([script.end(name) for name in script.branches()], [None, 9, None])

    def test_an_empty_script_has_base(self):
        script = parse_script("")
        self.assertEqual((script.branches(), script.sets("base"), script.end("base")), (["base"], [], None))

    def test_decisions_about_wrong_branches_are_refused_when_branches_are_asked_for(self):
        for text, what in [("set ghost at 5 desk room 1", "line 1: there is no branch ghost"),
                           ("fork base from base", "line 1: there is a branch base already"),
                           ("end base at 5\nfork a from base", "line 2: branch base has an end already"),
                           ("end base at 5\nend base at 6", "line 2: branch base has an end already")]:
            script = parse_script(text)
            self.assertTrue(script.decisions)
            with self.assertRaisesRegex(PlanningError, what):
                script.branches()

    def test_a_branch_that_is_not_made(self):
        with self.assertRaisesRegex(PlanningError, "makes no branch slow; its branches are base, fast, faster"):
            parse_script(PLANS).end("slow")
        many = parse_script("".join(f"fork b{number} from base\n" for number in range(200)))
        with self.assertRaisesRegex(PlanningError, r"its branches are base, b0, b1, b2, b3, b4, b5, b6 \.\.$"):
            many.sets("slow")


if __name__ == "__main__":
    unittest.main()
