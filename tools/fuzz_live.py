"""What `cloner live` says of a case, against its script, its journal under `run`, and its traces.

When a decision comes depends on the schedule, so two runs may differ; each must be right on its own.
"""
import re

LINE_7 = re.compile(rb"cloner: limit \d+ met at station [a-z0-9_]+ in clone [a-z0-9_]+\n")
LOOK = re.compile(r"look (\w+) (\w+) (\w+) (?:(unknown)|front=(\d+) clones=(\d+) (?:(absent)|handled=(\d+) shared=(\d+)))")


class Difference(Exception):
    """What a case showed that must not be; the text says it."""


def asked_of(script):
    """What each analyst of a script asks: its decisions and its looks, in order, as lines with single spaces."""
    asked, me = {"main": ([], [])}, "main"
    for line in script.decode().split("\n"):
        words = line.split()
        if not words or words[0].startswith("#"):
            continue
        if words[0] == "analyst":
            me = words[1]
            asked.setdefault(me, ([], []))
        else:
            asked[me][words[0] == "look"].append(" ".join(words))
    return asked


class Journal:
    """A journal's text: its lines of calls and fronts, and its look lines."""

    def __init__(self, text):
        head, _, rest = text.partition("\n")
        events, found, looks = rest.partition("looks ")
        if not re.fullmatch(r"journal \d+ \d+", head) or not found:
            raise Difference(f"no journal: {text[:80]!r}")
        self.calls, self.fronts = map(int, head.split()[1:])
        # without its comments, with which a long journal would be larger than a script may be
        self.script = "".join(line for line in events.splitlines(keepends=True) if not line.startswith("#"))
        self.count, *self.looks = looks.splitlines()
        if int(self.count) != len(self.looks):
            raise Difference(f"{self.count} looks in {len(self.looks)} lines")
        self.read_events(events.splitlines())

    def read_events(self, lines):
        """Notes what each analyst asked, the fronts, and how many clones there were before each."""
        self.asked, self.clones_at, clones, calls, last, me = {}, {0: 1}, 1, 0, 0, None
        for line in lines:
            if line.startswith("# front "):
                front = int(line[8:])
                if front <= last:
                    raise Difference(f"the front {front} after {last}")
                self.clones_at[front], last = clones, front
            elif line.startswith("analyst "):
                me = line[8:]
            else:
                calls += 1
                clones += line.startswith("fork ")
                self.asked.setdefault(me, []).append(re.sub(r"^# refused \d+( front \d+)?: ", "", line))
        if calls != self.calls or len(self.clones_at) - 1 != self.fronts:
            fronts = len(self.clones_at) - 1
            raise Difference(f"{calls} calls and {fronts} fronts behind journal {self.calls} {self.fronts}")


def check_asked(journal, asked):
    """Each analyst's decisions stand in the journal in order, and there is one look line for each look."""
    for name in asked.keys() | journal.asked.keys():
        if journal.asked.get(name, []) != asked.get(name, ([], []))[0]:
            raise Difference(f"the decisions of {name} are {journal.asked.get(name, [])}")
    wanted = [f"look {name} {look[5:]}" for name, (_, looks) in asked.items() for look in looks]
    if [" ".join(line.split()[:4]) for line in journal.looks] != wanted:
        raise Difference(f"the looks are {journal.looks}")


def check_looks(journal, traces, stations, log_entries):
    """What each look says is true of the traces, and no front of an analyst at a station falls."""
    names, logs, seen = list(traces), {}, {}
    for line in journal.looks:
        found = LOOK.fullmatch(line)
        if not found:
            raise Difference(f"the look {line!r}")
        analyst, who, station, unknown, front, clones, absent, handled, shared = found.groups()
        if bool(unknown) != (station not in stations):
            raise Difference(f"the look {line!r} over {stations}")
        if unknown:
            continue
        front, clones = int(front), int(clones)
        if journal.clones_at.get(front) != clones or front < seen.get((analyst, station), 0):
            raise Difference(f"the look {line!r}: front or clones")
        seen[analyst, station] = front
        if bool(absent) != (who not in names[:clones]):
            raise Difference(f"the look {line!r}: the first {clones} of {names}")
        if absent:
            continue
        for name in names[:clones]:
            logs.setdefault(name, log_entries(traces[name], stations))
        before = [[entry for entry in logs[name][station] if int(entry[0].split(" ")[0]) < front] for name in names[:clones]]
        own = before[names.index(who)]
        if len(own) != int(handled) or sum(log == own for log in before) != int(shared):
            raise Difference(f"the look {line!r}: {len(own)} handled, {sum(log == own for log in before)} share")


def check_live(live, script, run_script, split, log_entries):
    """One live run. `run_script` gives how `run` ends with another script."""
    if live.status == 7:
        line = live.err.rpartition(b"\n")[0].rpartition(b"\n")[2] + b"\n"
        if live.out or not LINE_7.fullmatch(line):
            raise Difference(f"status 7 with {live.err[-200:]!r}")
        journal = Journal(live.err[:-len(line)].decode())
        check_asked(journal, asked_of(script))
        again = run_script(journal.script.encode())
        if again.status != 7:
            raise Difference(f"`run` of its journal: status {again.status} {again.err[:200]!r}")
        return
    if live.status or live.err:
        raise Difference(f"status {live.status} {live.err[:200]!r}")
    text, found, rest = live.out.partition(b"clone base\n")
    journal = Journal(text.decode())
    check_asked(journal, asked_of(script))
    again = run_script(journal.script.encode())
    if again.status or again.out != found + rest:
        raise Difference(f"`run` of its journal differs: status {again.status} {again.err[:200]!r}")
    traces, report = split(again.out)
    check_looks(journal, traces, [line.split(" ")[0] for line in report[:-1]], log_entries)
