"""Runs a study once, and keeps its traces in a file for as long as they are needed."""
import contextlib
import os
import subprocess
import tempfile
from typing import Iterator

from .errors import PlanningError
from .seed_runs import Plan, write_text


@contextlib.contextmanager
def trace_of(plan: Plan, model_text: str) -> Iterator[str]:
    """Yields the path of the traces of one run with this text of the model."""
    with tempfile.TemporaryDirectory(prefix="cloner_trace_", dir=plan.folder) as folder:
        files = [write_text(folder, "model", model_text), write_text(folder, "script", plan.script_text)]
        mode = "run"
        if plan.watches_text is not None:
            files.append(write_text(folder, "watches", plan.watches_text))
            mode = "watch"
        path = os.path.join(folder, "trace")
        with open(path, "wb") as output:
            done = subprocess.run([plan.program, mode, "--", *files], stdin=subprocess.DEVNULL, stdout=output,
                                  stderr=subprocess.PIPE, check=False)
        if done.returncode:
            said = done.stderr.decode("utf-8", "replace").strip().split("\n")[-1]
            raise PlanningError(said or f"{plan.program} ended with status {done.returncode}")
        yield path
