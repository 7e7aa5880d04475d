"""The package: its version, its copy of the tables, its limits, its types, and an installation without network."""
import ast
import importlib.util
import os
import re
import shutil
import subprocess
import sys
import unittest

from samples import ENTRY, ENVIRONMENT, MODEL, PLANNING, SOURCES, TRACE, Folder, ended

import cloner_planning
from cloner_planning import limits
from cloner_planning.command_line import COMMANDS
from cloner_planning.explain_tables import read_tables, rule_of
from cloner_planning.limits import KINDS, REQUIRED
from cloner_planning.names import NAME
from cloner_planning.places import read_places

PYPROJECT = os.path.join(PLANNING, "pyproject.toml")


def skipped(what, why):
    """Says on standard error that a test is left out, and returns the reason."""
    print(f"planning/tests: {what} is skipped, since {why}", file=sys.stderr)
    return why


class Facts(unittest.TestCase):
    def test_one_version(self):
        self.assertEqual(read_places(PYPROJECT).data["project"]["version"], cloner_planning.__version__)
        self.assertEqual(ended("--version"), (0, f"cloner-planning {cloner_planning.__version__}\n", ""))

    def test_the_tables_are_those_of_the_page(self):
        done = subprocess.run([sys.executable, os.path.join(PLANNING, "formats_tables.py")], stdout=subprocess.PIPE,
                              check=False)
        self.assertEqual((done.returncode, done.stdout), (0, b""))

    def test_one_of_each(self):
        """Names, numbers and words are said once: no other module compiles the form of a name, or states a limit."""
        forms = {"names.py": NAME.pattern[:-2], "limits.py": "65_536", "toml_lines.py": "inf|nan",
                 "script_lines.py": "0|[1-9][0-9]{0,9}", "traces.py": "copies="}
        for place, form in forms.items():
            found = []
            for name in os.listdir(os.path.join(SOURCES, "cloner_planning")):
                if name.endswith(".py"):
                    with open(os.path.join(SOURCES, "cloner_planning", name), encoding="utf-8") as file:
                        found += [name] * (form in file.read())
            self.assertEqual(found, [place], form)

    def test_house_rules(self):
        for top in (SOURCES, os.path.join(PLANNING, "build_backend"), os.path.join(PLANNING, "tests")):
            for folder, _, names in os.walk(top):
                for name in names:
                    if name.endswith(".py"):
                        with open(os.path.join(folder, name), encoding="utf-8") as file:
                            lines = file.read().split("\n")
                        self.assertLessEqual(max(map(len, lines)), 120, name)
                        self.assertLess(len(lines), 500, name)
                        long = [node.name for node in ast.walk(ast.parse("\n".join(lines)))
                                if isinstance(node, (ast.FunctionDef, ast.AsyncFunctionDef))
                                and node.end_lineno - node.lineno >= 40]
                        self.assertEqual(long, [], name)


class Limits(unittest.TestCase):
    def setUp(self):
        self.tables = read_tables()

    def compare(self, key, bounds, default):
        """Compares the least and the greatest value and the default of a key with the page."""
        rule = rule_of(key.type)
        self.assertEqual((rule.least, rule.greatest), bounds[:2], key.name)
        said = REQUIRED if key.default == "required" else int(key.default.replace(",", ""))
        self.assertEqual(said, default, key.name)

    def test_numbers_at_the_top_and_at_links(self):
        for numbers, place in ((limits.TOP_NUMBERS, "at the top"), (limits.LINK_NUMBERS, "of a link")):
            for name, bounds in numbers.items():
                self.compare(self.tables.keys(place)[name], bounds, bounds[2])

    def test_keys_of_stations(self):
        keys = self.tables.keys("of a station")
        for kind in KINDS:
            for name, bounds in limits.NUMBERS[kind].items():
                self.compare(keys[name], bounds, bounds[2])
            for name, least in limits.RANGES[kind].items():
                self.assertEqual((rule_of(keys[name].type)[1:3]), (least, limits.MAX_TIME))
            for name, (words, _) in limits.WORDS[kind].items():
                self.assertEqual(rule_of(keys[name].type).words, words)
            own = {name for name, key in keys.items() if kind in key.kinds} - {"name", "kind", "stream", "link"}
            self.assertEqual(own, {*limits.NUMBERS[kind], *limits.RANGES[kind], *limits.WORDS[kind]})

    def test_the_table_of_limits(self):
        said = {row["What"]: row["Limit"].replace(",", "") for row in self.tables.rows("What", "## Limits")}
        for what, limit in (("clones, `base` among them", limits.MAX_BRANCHES), ("analysts", limits.MAX_ANALYSTS),
                            ("decision list of a clone", limits.MAX_SETS), ("watches in a file", limits.MAX_WATCHES),
                            ("forks, sets, ends and looks", limits.MAX_DECISIONS),
                            ("model file; script", limits.MAX_FILE_BYTES),
                            ("numbers in a script", limits.MAX_NUMBER), ("a line of the trace", limits.MAX_LINE_BYTES)):
            (text,) = [text for name, text in said.items() if name.startswith(what)]
            self.assertIn(str(limit), re.findall(r"\d+", text), what)

    def test_parameters(self):
        self.assertEqual({name: len(found.form.split()) - 1 for name, found in self.tables.parameters().items()},
                         limits.VALUES)


class Completion(Folder):
    def test_each_shell_knows_all_commands(self):
        for shell in ("bash", "zsh", "fish"):
            status, output, errors = ended("completion", shell)
            self.assertEqual((status, errors), (0, ""))
            for command in COMMANDS:
                self.assertIn(command, output)
        self.assertEqual(ended("completion", "csh")[0], 2)

    @unittest.skipUnless(shutil.which("bash"), "needs bash")
    def test_bash_completes(self):
        script = ended("completion", "bash")[1] + (
            'COMP_WORDS=(cloner-planning "$@"); COMP_CWORD=$#; _cloner_planning; echo "${COMPREPLY[*]}"\n')
        path = self.file("complete", script)
        for words, wanted in ((["su"], "summary"), (["summary", "--by"], "--by-class"), (["plot", "--al"], "--alone"),
                              (["check", "--x"], "")):
            done = subprocess.run(["bash", path, *words], stdout=subprocess.PIPE, check=True, cwd=self.folder)
            self.assertEqual(done.stdout.decode().strip(), wanted)
        self.file("my.model", "")
        done = subprocess.run(["bash", path, "check", "my"], stdout=subprocess.PIPE, check=True, cwd=self.folder)
        self.assertEqual(done.stdout.decode().strip(), "my.model")


class Types(Folder):
    def test_mypy_has_no_finding(self):
        mypy = shutil.which("mypy")
        if not mypy:
            self.skipTest(skipped("mypy --strict", "there is no mypy"))
        done = subprocess.run([mypy, "--config-file", PYPROJECT, "--cache-dir", self.folder], cwd=PLANNING,
                              stdout=subprocess.PIPE, stderr=subprocess.STDOUT, check=False)
        self.assertEqual((done.returncode, done.stdout.decode().split(":")[0]), (0, "Success"), done.stdout.decode())


class Installed(Folder):
    def python(self, *words):
        """Returns what the Python of the virtual environment prints; fails if its status is not 0."""
        environment = dict(os.environ, PIP_CONFIG_FILE=os.devnull, PYTHONDONTWRITEBYTECODE="1")
        done = subprocess.run([os.path.join(self.folder, "venv", "bin", "python"), *words], cwd=self.folder,
                              stdout=subprocess.PIPE, stderr=subprocess.STDOUT, env=environment, check=False)
        self.assertEqual(done.returncode, 0, done.stdout.decode())
        return done.stdout.decode()

    def test_pip_install(self):
        for module in ("venv", "ensurepip"):
            if importlib.util.find_spec(module) is None:
                self.skipTest(skipped("pip install ./planning", f"this Python has no {module}"))
        made = subprocess.run([sys.executable, "-m", "venv", os.path.join(self.folder, "venv")], check=False,
                              stdout=subprocess.PIPE, stderr=subprocess.STDOUT)
        if made.returncode:
            self.skipTest(skipped("pip install ./planning", "no virtual environment could be made"))
        self.python("-m", "pip", "install", "--no-index", "--disable-pip-version-check", "-q", PLANNING)
        model, trace = self.file("model", MODEL), self.file("trace", TRACE)
        command = os.path.join(self.folder, "venv", "bin", "cloner-planning")
        wanted = subprocess.run([*ENTRY, "summary", trace, "--model", model], stdout=subprocess.PIPE, check=True,
                                env=ENVIRONMENT).stdout
        got = subprocess.run([command, "summary", trace, "--model", model], stdout=subprocess.PIPE, check=True,
                             cwd=self.folder).stdout
        self.assertEqual(got, wanted)
        self.assertIn(b"Servers\n", got)
        explained = subprocess.run([command, "explain", model], input=b"cloner: model: refusal 2 at station 0\n",
                                   stdout=subprocess.PIPE, check=False, cwd=self.folder)
        self.assertEqual((explained.returncode, b"TOML" in explained.stdout), (1, True))
        self.assertIn("cloner_planning", self.python("-c", "import cloner_planning; print(cloner_planning.__file__)"))
        self.assertIn("py.typed", self.python("-m", "pip", "show", "-f", "cloner-planning"))


if __name__ == "__main__":
    unittest.main()
