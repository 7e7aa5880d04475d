"""Runs of `cloner` and of `summary` for the validation scripts.

The program is the one on the path, or else the one that `rt run` leaves.
"""
import csv
import os
import re
import shutil
import subprocess
import sys
import tempfile

TOP = os.path.realpath(os.path.join(os.path.dirname(os.path.abspath(__file__)), "..", ".."))
BUILT = os.path.join(TOP, "crates", "cloner_cli", "out", "cloner_cli")
SOURCES = os.path.join(TOP, "planning", "src")


def program():
    """Returns the path of `cloner`. Ends with one line if it is not there, so a script calls it before it starts processes."""
    found = shutil.which("cloner") or BUILT
    if not os.access(found, os.X_OK):
        sys.exit("there is no `cloner` on the path, and none that `rt run` has built in crates/cloner_cli")
    return found


def example(name):
    """Returns the text of a file of examples/."""
    with open(os.path.join(TOP, "examples", name), encoding="ascii") as file:
        return file.read()


def with_seed(model, seed):
    """Returns the model with another seed."""
    return re.sub(r"^seed = .*$", f"seed = {seed}", model, count=1, flags=re.MULTILINE)


def printed(command, **texts):
    """Returns what a command prints. A word @NAME of it becomes a file that holds the text of that name."""
    with tempfile.TemporaryDirectory() as folder:
        for name, text in texts.items():
            with open(os.path.join(folder, name), "w", encoding="ascii") as file:
                file.write(text)
        words = [os.path.join(folder, word[1:]) if word.startswith("@") else word for word in command]
        environment = dict(os.environ, PYTHONPATH=SOURCES)
        return subprocess.run(words, stdout=subprocess.PIPE, encoding="ascii", check=True, env=environment).stdout


def run(model, script=""):
    """Returns the traces and the report of a run."""
    return printed([program(), "run", "@model", "@script"], model=model, script=script)


def traces(output):
    """Returns the trace of each branch of a run, as a list of lines without the first one, by the branch's name."""
    parts = re.split(r"^clone (\w+)\n", output[: output.rindex("\nreport\n") + 1], flags=re.MULTILINE)[1:]
    return {name: lines.splitlines() for name, lines in zip(parts[::2], parts[1::2])}


def summary(model, output):
    """Returns the rows of `summary` for each branch of a run: dicts by column, by station and class."""
    command = [sys.executable, "-m", "cloner_planning", "summary", "--csv", "--by-class", "--model", "@model", "@output"]
    found = {}
    for row in csv.DictReader(printed(command, model=model, output=output).splitlines()):
        found.setdefault(row["branch"], {})[row["station"], row["class"]] = row
    return found
