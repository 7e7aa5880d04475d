"""The entry script: closed and full streams, and a model that is no TOML."""
import os
import subprocess
import sys
import unittest

from samples import ENVIRONMENT

from cloner_planning.errors import PlanningError
from cloner_planning.models import parse_model



def ended(words: str, streams: str = ""):
    """Returns the status and the error output of the entry script, run by a shell with these redirections."""
    command = f'exec "$0" -m cloner_planning {words} {streams}'
    run = subprocess.run(["sh", "-c", command, sys.executable], stdin=subprocess.DEVNULL, stdout=subprocess.PIPE,
                         stderr=subprocess.PIPE, env=ENVIRONMENT, check=False)
    return run.returncode, run.stderr.decode()


class Streams(unittest.TestCase):
    def test_closed_streams_are_empty(self):
        self.assertEqual(ended("explain", "<&-"), (0, ""))
        status, errors = ended("summary -", "<&-")
        self.assertEqual(status, 2)
        self.assertRegex(errors, r"\Acloner-planning: [^\n]*\n\Z")
        self.assertEqual(ended("--help", ">&-"), (0, ""))
        self.assertEqual(ended("summary /no/trace", "2>&-"), (2, ""))

    @unittest.skipUnless(os.path.exists("/dev/full"), "needs /dev/full")
    def test_full_streams(self):
        self.assertEqual(ended("--help", "> /dev/full"), (2, "cloner-planning: No space left on device\n"))
        self.assertEqual(ended("summary /no/trace", "2> /dev/full"), (2, ""))


class NoToml(unittest.TestCase):
    def test_what_only_toml_1_1_has_is_not_blamed(self):
        text = "station = [{ name = 'a',\n kind = 'sink' }]\nhorizon = 99999999999999999999\n"
        with self.assertRaisesRegex(PlanningError, "no TOML: line 3: the number `99999999999999999999` is outside"):
            parse_model(text)


if __name__ == "__main__":
    unittest.main()
