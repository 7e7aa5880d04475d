#!/usr/bin/env python3
"""Tries the wrong bodies of wrong-bodies/: the prover must refuse each.

    tools/wrong_bodies.py                      # those of all crates
    tools/wrong_bodies.py msg_heap stations    # those of these crates
    tools/wrong_bodies.py sim_draw/at_does_not_leap    # this one
    tools/wrong_bodies.py --jobs 4             # four checks at a time
    tools/wrong_bodies.py --together           # edits of different functions in one check
    tools/wrong_bodies.py --anew               # also those that an earlier run tried
    tools/wrong_bodies.py --table              # prints the table of wrong-bodies/README.md, and tries nothing
    tools/wrong_bodies.py --write              # puts that table into the page, and tries nothing

It works on a copy of the checkout, where the edits of wrong-bodies/CRATE take the place of those of the crate's
must-fail/, and runs `rt must-fail CRATE` there. Of each edit it prints what became of it, and the clause that
refused it. The copy has what the checkout has built and checked; libraries that lack are proved first.

An edit that only a type refuses has a line `by: error[..]`, the compiler's error; `rt must-fail` calls it a bad edit.
One that is refused only because it takes away a name that proof files cite is a bad edit here.
With `--together` it first tries edits of different functions in one `rt check`. The proof of a function reads its own
body and the contracts of the others. So an error in a function that one of these edits changes is an error of that
edit. An edit whose function has no such error is then tried alone, and so is each that turns a definition.
Results are kept in wrong-bodies/out/results.tsv. An edit is tried again if its text or a file of its crate has
changed since. What changed in crates below is not looked at: `--anew` tries all.
"""
import argparse
import collections
import concurrent.futures
import dataclasses
import datetime
import hashlib
import os
import pathlib
import re
import shutil
import subprocess
import sys
import tempfile
import threading
from collections.abc import Iterable

import crate_list

TOP = pathlib.Path(crate_list.TOP)
BODIES = "wrong-bodies"
PAGE = f"{BODIES}/README.md"
RESULTS = TOP / BODIES / "out" / "results.tsv"
PARTS = ("src", "specs", "proofs")
LEFT_OUT = {".git", "__pycache__", "fuzz-failed"}

REFUSED, MISSED, BAD, UNTRIED = "refused", "NOT REFUSED", "BAD EDIT", "NOT TRIED"
SAID = re.compile(r"rt: must-fail (\w+)/(\S+)\.edit: (refused|NOT REFUSED|BAD EDIT|NOT TRIED)(.*)")
PLACE = re.compile(r"(?:\./)?((?:src|specs|proofs)/\S+?):(\d+):\d+: (?:error: )?(.*)")
FUNCTION = re.compile(r"\s*(?:pub(?:\(crate\))? )?fn (\w+)")
HEAD = re.compile(r"^( *)(?:pub(?:\(crate\))? )?fn (\w+)", re.M)
TOLD = re.compile(r"(?:note: )?((?:\./)?(?:src|proofs)/\S+?:\d+:\d+: (?:.*: )?(?:error|it is not proved).*)")
TYPE_ERROR = re.compile(r"^by: (error\[[\w-]+\])$", re.M)
CLAUSE = re.compile(r"clause-([\w-]+)`")
GOAL = re.compile(r"`([^`]+)`")
NAME_ALONE = "(only because a proof file names"
LOST_NAME = re.compile(r"has no field|is not in scope|has no `|was not admitted|is no name|operand is missing")
NOT_PROVED = re.compile(r"^logic=not-proved", re.M)
WHY_LENGTH = 160
SUM_DIGITS = 16


@dataclasses.dataclass(frozen=True)
class Result:
    """What became of an edit: the sum of the files that it was tried on, the verdict, and why."""

    sum: str
    verdict: str
    why: str
    date: str


def edits_of(crate: str) -> list[pathlib.Path]:
    """The edits of a crate, by name."""
    return sorted((TOP / BODIES / crate).glob("*.edit"))


def crates_with_edits() -> list[str]:
    """The crates that have wrong bodies, the smallest first."""
    names = {path.parent.name for path in (TOP / BODIES).glob("*/*.edit")}
    return sorted(names, key=lambda crate: (sum(path.stat().st_size for path in files_of(crate)), crate))


def chosen(words: list[str]) -> dict[str, list[pathlib.Path]]:
    """The edits that are named, by crate: by CRATE or CRATE/NAME, or all if nothing is named."""
    found = {}
    for crate in crates_with_edits():
        named = [edit for edit in edits_of(crate) if not words or {crate, f"{crate}/{edit.stem}"} & set(words)]
        if named:
            found[crate] = named
    return found


def files_of(crate: str) -> list[pathlib.Path]:
    """The files that a proof of a crate reads, without those of the crates below."""
    found = [path for part in PARTS for path in (TOP / "crates" / crate / part).rglob("*")]
    return sorted(path for path in found if path.is_file())


def sum_of_crate(crate: str) -> str:
    """A sum of a crate's files and their places."""
    made = hashlib.sha256()
    for path in files_of(crate):
        made.update(f"{path.relative_to(TOP)}\0{path.stat().st_size}\0".encode())
        made.update(path.read_bytes())
    return made.hexdigest()


def sum_of_edit(edit: pathlib.Path, of_crate: str) -> str:
    """A sum of an edit's text and of its crate's files."""
    return hashlib.sha256(of_crate.encode() + edit.read_bytes()).hexdigest()[:SUM_DIGITS]


def read_results() -> dict[str, Result]:
    """The results of earlier runs, by CRATE/NAME."""
    if not RESULTS.exists():
        return {}
    rows = (line.split("\t") for line in RESULTS.read_text(encoding="utf-8").splitlines())
    return {row[0]: Result(*row[1:]) for row in rows}


def write_results(results: dict[str, Result]) -> None:
    """Writes all results, apart first, so that none is lost if the run is stopped."""
    RESULTS.parent.mkdir(exist_ok=True)
    rows = ("\t".join((name, *dataclasses.astuple(results[name]))) + "\n" for name in sorted(results))
    apart = RESULTS.with_suffix(".new")
    apart.write_text("".join(rows), encoding="utf-8")
    apart.replace(RESULTS)


def link_or_copy(source: str, target: str) -> None:
    """Gives a file that a check or a build made a second name, and copies every other file."""
    try:
        if ".rlib/" not in source and not source.endswith(".oantt"):
            raise OSError
        os.link(source, target)
    except OSError:
        shutil.copy2(source, target)


def copy_checkout(to: pathlib.Path, crates: Iterable[str]) -> None:
    """Copies the checkout. It links the built libraries, and copies what checks kept for these crates alone."""
    kept = {TOP / "crates" / crate / "out" for crate in crates}

    def left_out(folder: str, names: list[str]) -> set[str]:
        path = pathlib.Path(folder)
        checked = {"incremental"} if path.name == "out" and path not in kept else set()
        return LEFT_OUT | checked | {name for name in names if name.endswith(".rlib")}

    shutil.copytree(TOP, to, symlinks=True, ignore=left_out, copy_function=link_or_copy)
    for library in (TOP / "crates").glob("*/out/rlib/*.rlib"):
        shutil.copytree(library, to / library.relative_to(TOP), copy_function=link_or_copy)


def why_of(text: str) -> str:
    """The reason in a line of `rt must-fail`, without the words that are the same in each."""
    return re.sub(r"^(, as it must be)?[: ]*(note: )?", "", text.replace("\t", " ")).strip()


def function_at(crate: str, file: str, line: int) -> str:
    """The function that a line of a source file is in, or that a generated proof file is of."""
    if file.startswith("proofs/"):
        return "::".join(pathlib.PurePath(file).parts[1:-1]) or pathlib.PurePath(file).stem
    lines = (TOP / "crates" / crate / file).read_text(encoding="utf-8").splitlines()
    while lines[line - 1].strip().startswith("#["):
        line += 1
    return next((found[1] for found in map(FUNCTION.match, reversed(lines[:line])) if found), file)


def clause_of(crate: str, why: str) -> str:
    """What refused an edit, in short: the clause and its function, or what of the function was not proved."""
    place = PLACE.match(why)
    if not place:
        return why
    file, words = place[1], place[3]
    function = function_at(crate, file, int(place[2]))
    clause, goal = CLAUSE.search(words), GOAL.search(words)
    if clause:
        return f"clause `{clause[1]}` of `{function}`"
    return f"`{goal[1]}` of `{function}`" if goal else f"`{function}`: {words}"


def said_of(output: str) -> dict[str, tuple[str, str]]:
    """What `rt must-fail` says of each edit, by name: the verdict, and why, with the lines that follow."""
    found: dict[str, list[str]] = {}
    name = None
    for line in output.splitlines():
        match = SAID.match(line)
        if match:
            name = match[2]
            found[name] = [match[3], match[4]]
        elif line.startswith("rt: "):
            name = None
        elif name:
            found[name][1] += " " + line.strip()
    return {name: (verdict, why_of(words)) for name, (verdict, words) in found.items()}


def judged(edit: pathlib.Path, verdict: str, why: str) -> tuple[str, str]:
    """The verdict, if a type may refuse the edit, or only a name that it took away did; and why."""
    wanted = TYPE_ERROR.search(edit.read_text(encoding="utf-8"))
    if verdict == BAD and wanted and wanted[1] in why:
        return REFUSED, f"the types: {wanted[1]}"
    return (BAD, why) if why.startswith(NAME_ALONE) else (verdict, why)


def try_crate(copy: pathlib.Path, crate: str, edits: list[pathlib.Path], jobs: int, anew: bool) -> dict[str, tuple]:
    """Tries edits of a crate in a copy of the checkout. Returns verdict and reason by name."""
    folder = copy / "crates" / crate / "must-fail"
    shutil.rmtree(folder, ignore_errors=True)
    folder.mkdir()
    for edit in edits:
        shutil.copy2(edit, folder)
    words = ["rt", "must-fail", crate] + ["--anew"] * anew
    environment = {**os.environ, "RT_JOBS": str(jobs)}
    ran = subprocess.run(words, cwd=copy, env=environment, capture_output=True, text=True, errors="replace")
    said = said_of(ran.stdout)
    last = (ran.stderr.strip() or ran.stdout.strip() or "no output").splitlines()[-1]
    return {edit.stem: judged(edit, *said.get(edit.stem, (UNTRIED, last))) for edit in edits}


@dataclasses.dataclass(frozen=True)
class Function:
    """A function that an edit changes: its file, its name, and its lines."""

    file: str
    name: str
    lines: range

    def has(self, place: re.Match) -> bool:
        """Whether a place is in the function or in a file of its proof."""
        file = pathlib.PurePath(place[1])
        if file.parts[0] == "proofs":
            return file.parent.name == self.name
        return place[1] == self.file and int(place[2]) in self.lines


def pairs_of(edit: pathlib.Path) -> list[tuple[str, str, str]]:
    """What an edit replaces: the file, the old text and the new one."""
    file, old, found = "", "", []
    for line in edit.read_text(encoding="utf-8").splitlines():
        word, _, text = line.partition(": ")
        if word == "file":
            file = text.strip()
        elif word == "old":
            old = text
        elif word == "new":
            found.append((file, old, text))
    return found


def function_of(file: str, text: str, at: int) -> Function | None:
    """The function whose body has this place of a source file, from its first attribute to its last line."""
    head = collections.deque(HEAD.finditer(text, 0, at), maxlen=1)
    if not head:
        return None
    indent, name = head[0][1], head[0][2]
    body = re.compile(rf"^{indent}\{{|\{{$", re.M).search(text, head[0].end())
    end = re.compile(rf"^{indent}\}}", re.M).search(text, head[0].end())
    if not body or not end or not body.start() < at < end.start():
        return None
    lines = text.splitlines()
    first = text.count("\n", 0, head[0].start()) + 1
    while lines[first - 2].strip().startswith("#["):
        first -= 1
    return Function(file, name, range(first, text.count("\n", 0, end.start()) + 2))


def function_changed(crate: str, edit: pathlib.Path) -> Function | None:
    """The one function whose body an edit changes, or None if it changes more than one, or something else."""
    found = set()
    for file, old, _ in pairs_of(edit):
        text = (TOP / "crates" / crate / file).read_text(encoding="utf-8")
        found.add(function_of(file, text, text.find(old)) if file.startswith("src/") else None)
    return found.pop() if len(found) == 1 else None


def rounds_of(crate: str, edits: Iterable[pathlib.Path]) -> list[dict[pathlib.Path, Function]]:
    """The edits that can be tried together, in rounds of functions with different names."""
    rounds: list[dict[pathlib.Path, Function]] = []
    for edit in edits:
        function = function_changed(crate, edit)
        if function:
            free = (it for it in rounds if function.name not in {other.name for other in it.values()})
            into = next(free, None)
            if into is None:
                into = {}
                rounds.append(into)
            into[edit] = function
    return rounds


def errors_in(function: Function, output: str) -> list[str]:
    """The errors of a check that are in a function."""
    told = (line[1] for line in map(TOLD.match, output.splitlines()) if line)
    return [line for line in told if function.has(PLACE.match(line))]


def check_with(folder: pathlib.Path, edits: Iterable[pathlib.Path], jobs: int) -> str:
    """What `rt check` says of a crate with edits, whose files are then as they were."""
    pairs = [pair for edit in edits for pair in pairs_of(edit)]
    texts = {file: (folder / file).read_text(encoding="utf-8") for file, _, _ in pairs}
    changed = dict(texts)
    for file, old, new in pairs:
        changed[file] = changed[file].replace(old, new)
    for file, text in changed.items():
        (folder / file).write_text(text, encoding="utf-8")
    words = ["rt", "check", "--jobs", str(jobs)]
    streams = {"stdout": subprocess.PIPE, "stderr": subprocess.STDOUT}
    ran = subprocess.run(words, cwd=folder, text=True, errors="replace", **streams)
    for file, text in texts.items():
        (folder / file).write_text(text, encoding="utf-8")
    return ran.stdout


def try_round(folder: pathlib.Path, edits: dict[pathlib.Path, Function], jobs: int) -> dict[str, tuple]:
    """Tries edits of different functions in one check. Returns verdict and reason of those that it refuses, by name."""
    output = check_with(folder, edits, jobs)
    told = {edit: errors_in(function, output) for edit, function in edits.items()}
    if not NOT_PROVED.search(output):
        # the compiler refuses the edits with errors
        others = {edit: function for edit, function in edits.items() if not told[edit]}
        return try_round(folder, others, jobs) if 0 < len(others) < len(edits) else {}
    whys = {edit.stem: next((line for line in told[edit] if not LOST_NAME.search(line)), "") for edit in edits}
    return {name: (REFUSED, why[:WHY_LENGTH]) for name, why in whys.items() if why}


class Run:
    """A run: the edits that it is to try, and all results so far."""

    def __init__(self, edits: dict[str, list[pathlib.Path]], jobs: int, anew: bool, together: bool):
        self.edits, self.anew, self.together = edits, anew, together
        self.lanes = max(1, min(jobs, len(edits)))
        self.jobs = max(1, jobs // self.lanes)
        self.results, self.lock = read_results(), threading.Lock()

    def is_known(self, name: str, made: str) -> bool:
        """Whether an earlier run tried an edit on the same files, with an end that stays so."""
        known = self.results.get(name)
        return not self.anew and known is not None and known.sum == made and known.verdict != UNTRIED

    def due(self, crate: str) -> dict[pathlib.Path, str]:
        """The edits of a crate whose result is not known, with the sums of what they are tried on."""
        of_crate = sum_of_crate(crate)
        sums = {edit: sum_of_edit(edit, of_crate) for edit in self.edits[crate]}
        return {edit: made for edit, made in sums.items() if not self.is_known(f"{crate}/{edit.stem}", made)}

    def keep(self, crate: str, sums: dict[pathlib.Path, str], found: dict[str, tuple]) -> None:
        """Keeps what became of edits of a crate."""
        today = datetime.date.today().isoformat()
        tried = [edit for edit in sums if edit.stem in found]
        results = {f"{crate}/{edit.stem}": Result(sums[edit], *found[edit.stem], today) for edit in tried}
        with self.lock:
            self.results.update(results)
            write_results({**read_results(), **results})

    def try_together(self, copy: pathlib.Path, crate: str, due: dict[pathlib.Path, str]) -> dict[str, tuple]:
        """Tries edits of different functions together, and keeps and returns what became of those that are refused."""
        found = {}
        for edits in rounds_of(crate, due) if self.together else []:
            refused = try_round(copy / "crates" / crate, edits, self.jobs)
            self.keep(crate, due, refused)
            found |= refused
        return found

    def try_crate(self, copy: pathlib.Path, crate: str) -> None:
        """Tries the edits of a crate that are due, keeps what became of them, and prints all of its edits."""
        due = self.due(crate)
        found = self.try_together(copy, crate, due)
        alone = [edit for edit in due if edit.stem not in found]
        self.keep(crate, due, try_crate(copy, crate, alone, self.jobs, self.anew) if alone else {})
        with self.lock:
            for edit in self.edits[crate]:
                result = self.results[f"{crate}/{edit.stem}"]
                why = clause_of(crate, result.why) if result.verdict == REFUSED else result.why
                print(f"{crate}/{edit.stem}: {result.verdict}{': ' if why else ''}{why}", flush=True)

    def try_all(self) -> int:
        """Tries all its edits, prints the count, and returns how many were not refused."""
        with tempfile.TemporaryDirectory(prefix="wrong-bodies-") as room:
            copy = pathlib.Path(room) / "copy"
            if any(self.due(crate) for crate in self.edits):
                copy_checkout(copy, self.edits)
            with concurrent.futures.ThreadPoolExecutor(self.lanes) as pool:
                list(pool.map(lambda crate: self.try_crate(copy, crate), self.edits))
        names = [f"{crate}/{edit.stem}" for crate, edits in self.edits.items() for edit in edits]
        refused = sum(self.results[name].verdict == REFUSED for name in names)
        print(f"{refused} refused, {len(names) - refused} not")
        return len(names) - refused


def results_now() -> dict[tuple[str, str], Result]:
    """The result of each edit that is there now, by crate and name: NOT TRIED if none is of these files."""
    results, found = read_results(), {}
    for crate in sorted(crates_with_edits()):
        of_crate = sum_of_crate(crate)
        for edit in edits_of(crate):
            made = sum_of_edit(edit, of_crate)
            known = results.get(f"{crate}/{edit.stem}")
            found[crate, edit.stem] = known if known and known.sum == made else Result(made, UNTRIED, "", "")
    return found


def table() -> str:
    """The table of results, under their counts and the tree of the crates."""
    found = results_now()
    counts = collections.Counter(result.verdict for result in found.values())
    words = ["git", "-C", str(TOP), "rev-parse", "HEAD:crates"]
    tree = subprocess.run(words, capture_output=True, text=True, check=True).stdout.strip()
    told = ", ".join(f"{counts[verdict]} {verdict}" for verdict in (REFUSED, MISSED, BAD, UNTRIED))
    rows = [f"{told}. The tree of `crates/` is `{tree[:12]}`.\n\n"]
    rows += ["| Edit | Verdict | By | Date |\n", "|---|---|---|---|\n"]
    for (crate, name), result in found.items():
        why = clause_of(crate, result.why).replace("|", "\\|")
        rows.append(f"| `{crate}/{name}` | {result.verdict} | {why} | {result.date} |\n")
    return "".join(rows)


def main() -> int:
    """Runs what the words say; the status is 1 if an edit was not refused."""
    options = argparse.ArgumentParser(description=__doc__, formatter_class=argparse.RawDescriptionHelpFormatter)
    options.add_argument("named", nargs="*", metavar="CRATE or CRATE/NAME")
    options.add_argument("--jobs", type=int, default=1, help="checks at a time")
    options.add_argument("--together", action="store_true", help="tries edits of different functions in one check")
    options.add_argument("--anew", action="store_true", help="tries also what an earlier run tried")
    options.add_argument("--table", action="store_true", help="prints the table of results")
    options.add_argument("--write", action="store_true", help="puts the table into the page")
    given = options.parse_args()
    if given.table or given.write:
        made = table()
        if given.table:
            print(made, end="")
        if given.write:
            page = crate_list.with_made(crate_list.read(PAGE), "wrong_bodies.py", made)
            (TOP / PAGE).write_text(page, encoding="utf-8")
        return 0
    edits = chosen(given.named)
    known = {name for crate, named in edits.items() for name in (crate, *(f"{crate}/{edit.stem}" for edit in named))}
    for word in given.named:
        if word not in known:
            options.error(f"{BODIES}/ has no {word}")
    return 1 if Run(edits, given.jobs, given.anew, given.together).try_all() else 0


if __name__ == "__main__":
    sys.exit(main())
