"""Explains a snapshot: which line breaks which rule, what the model says there, and what a snapshot holds."""
import re
from typing import Any, Dict, List, NamedTuple, Optional, Tuple

from .explain_script import GONE, here
from .explain_tables import Tables, in_range, rule_of
from .limits import (
    DEFAULT_LIMIT, KINDS, MAX_JOBS, MAX_LINE_BYTES, MAX_NUMBER, MAX_ROOM, MAX_SENDS, MAX_SERVERS, MAX_SETS, MAX_STAY,
    MAX_STAY_SUM, TIME_BOUND)
from .names import NAME, did_you_mean
from .places import Places, is_integer, printable, size_of
from .script_lines import Lines, Word, fault_of_number

JOB = re.compile(r"([0-9]+)\.([0-9]+)\.([0-9]+)\Z")
RANGES = {"source": "every", "server": "service", "delay": "hold"}
PAYLOADS: Dict[str, List[str]] = {"tick": [], "job": ["J"], "done": ["J"]}
ANOTHER_MODEL = "Is it the snapshot of another model?"


class Job(NamedTuple):
    """A job of a snapshot: the number of its source, its count there, and the time at which it was made."""

    source: int
    number: int
    born: int


class Message(NamedTuple):
    """A pending message; the job is None if it brings none."""

    time: int
    sender: int
    number: int
    receiver: int
    what: str
    job: Optional[Job]


def job_in(word: str) -> Job:
    """Returns the job that a word of the right form writes."""
    return Job(*map(int, word.split(".")))


class SnapshotForms:
    """What the words of each line of a snapshot must be, for a model."""

    def __init__(self, tables: Tables, places: Places):
        self.forms = tables.snapshot_forms()
        self.shapes = tables.snapshot_shapes()
        self.parameters = tables.parameters()
        self.places = places

    def station(self, number: int, words: List[str]) -> List[str]:
        """Returns the parts of a station's line; the kind that it says gives its end."""
        parts = self.forms["station"].split()[:-1]
        parts[1] = str(number)
        shape = self.shapes.get(words[len(parts)] if len(words) > len(parts) else "", "SHAPE").split()
        if shape[-1] != "..":
            return parts + shape
        before = len(parts) + len(shape) - 2
        count = len(self.places.links(number))
        if shape[-2] == "J":
            count = int(words[before - 1]) if before <= len(words) and not fault_of_number(words[before - 1]) else 0
        return parts + shape[:-2] + [shape[-2]] * min(count, len(words) + 1)

    def message(self, words: List[str]) -> List[str]:
        """Returns the parts of the line of a message; its payload gives its end."""
        parts = self.forms["TIME"].split()[:-1]
        word, parameter = (words[len(parts):] + ["", ""])[:2]
        if word == "set":
            known = self.parameters.get(parameter)
            return parts + ["set"] + (known.form.split() if known else ["PARAMETER"])
        return parts + ([word] + PAYLOADS[word] if word in PAYLOADS else ["PAYLOAD"])

    def fault(self, part: str, word: str) -> List[str]:
        """Returns why a word is not this part of a form, in sentences; nothing if it is."""
        if part in ("SHAPE", "PAYLOAD", "PARAMETER"):
            known = {"SHAPE": KINDS, "PAYLOAD": (*PAYLOADS, "set"), "PARAMETER": tuple(self.parameters)}[part]
            name = {"SHAPE": "kind", "PAYLOAD": "message", "PARAMETER": "parameter"}[part]
            return [f"is no {name}: they are {', '.join(known)}.", *did_you_mean(word, known)]
        if not part.isupper():
            return [] if word == part else [f"is where `{part}` belongs."]
        if part == "NAME":
            return [] if NAME.match(word) else ["is no name of a branch."]
        if part == "J":
            return self.job_fault(word)
        if part == "E" and word == "-":
            return []
        fault = fault_of_number(word, MAX_STAY if part == "STAY" else MAX_NUMBER)
        return [f"is no number: {fault}."] if fault else []

    def job_fault(self, word: str) -> List[str]:
        """Returns why a word is no job."""
        if not JOB.match(word):
            return ["is no job: a job is SOURCE.COUNT.BORN, three numbers with dots, the source as its number."]
        faults = [fault_of_number(part) for part in word.split(".")]
        return [f"is no job: {fault}." for fault in faults if fault][:1]

    def faults(self, words: List[Word], parts: List[str]) -> List[str]:
        """Returns what is wrong with the first word that does not fit."""
        for word, part in zip(words, parts):
            found = self.fault(part, word.text)
            if found:
                return [f"{here(word)} {found[0]}", *found[1:]]
        if len(words) < len(parts):
            part = parts[len(words)]
            return [f"After `{printable(words[-1].text)}` {part if part.isupper() else f'`{part}`'} is missing."]
        return [f"{here(words[len(parts)])} is too much."] if len(words) > len(parts) else []


def fault_of_blanks(text: str) -> List[str]:
    """Returns what is wrong between the words of a line; nothing if each blank is one space between two words."""
    if not text:
        return ["The line is empty, and a snapshot has no empty lines."]
    if text.endswith("\r"):
        return ["The line ends with CR LF, and a snapshot's lines end with LF alone: "
                "was it written by an editor, or copied as a text of another system?"]
    found = re.search(r"\A | \Z|  |[^!-~ ]", text)
    if not found:
        return []
    what = {" ": "a space", "  ": "a second space", "\t": "a tab"}.get(found.group(), "no printed ASCII character")
    column = found.start() + len(found.group())
    return [f"Column {column} has {what}: words are separated by exactly one space."]


def shown_form(parts: List[str]) -> str:
    """Returns the form that has these parts; those that may be repeated are shown once."""
    last = parts[-1]
    return " ".join(parts if last not in ("J", "W") else parts[:parts.index(last)] + [last, ".."])


class Snapshots:
    """A snapshot and the model that it is of."""

    def __init__(self, lines: Lines, tables: Tables, places: Places):
        self.lines = lines
        self.places = places
        self.forms = SnapshotForms(tables, places)
        self.keys = tables.keys("of a station")
        self.weight = rule_of(tables.keys("of a link")["weight"].type)
        self.stations = places.stations()
        self.pending_line = len(self.stations) + 2

    def explain(self, number: int, place: int) -> List[str]:
        """Returns the explanation of `snapshot: refusal NUMBER at PLACE`."""
        if number == 1:
            return [size_of(self.lines.path)]
        if self.places.fault:
            return [f"{self.places.path} as it is now is no TOML."]
        if number == 2:
            return self.bad_line(place)
        if number == 6:
            return [self.lines.shown(1)] + (self.bad_front() or [GONE])
        line = place + 1 if number == 3 else self.pending_line + 1 + place
        if not self.is_whole() or not self.parts(line):
            return [self.lines.shown(line), GONE]
        return [self.lines.shown(line)] + ((self.unfit(place) if number == 3 else self.bad_message(place)) or [GONE])

    # lines

    def raw(self, line: int) -> str:
        """Returns a line with all its bytes, each as one character."""
        return self.lines.raw[line - 1].decode("latin-1") if 1 <= line <= len(self.lines.raw) else ""

    def words(self, line: int) -> List[Word]:
        """Returns the words of a line."""
        return [Word(word.group(), word.start() + 1) for word in re.finditer(r"[^ ]+", self.raw(line))]

    def texts(self, line: int) -> List[str]:
        """Returns the words of a line as texts."""
        return [word.text for word in self.words(line)]

    def count(self, line: int) -> Optional[int]:
        """Returns the number in a line `pending N` or `trace N`; None if it has none."""
        words = self.texts(line)
        return int(words[1]) if len(words) == 2 and not fault_of_number(words[1]) else None

    def trace_line(self) -> Optional[int]:
        """Returns the line at which `trace N` belongs; None if the messages are not counted."""
        count = self.count(self.pending_line)
        return None if count is None else self.pending_line + 1 + count

    def parts(self, line: int) -> List[str]:
        """Returns the parts of the form of a line before those of the trace; none if it is not known."""
        words, trace = self.texts(line), self.trace_line()
        if line == 1:
            return self.forms.forms["snapshot"].split()
        if line < self.pending_line:
            return self.forms.station(line - 1, words)
        if line == self.pending_line:
            return self.forms.forms["pending"].split()
        if trace is None or line > trace:
            return []
        return self.forms.forms["trace"].split() if line == trace else self.forms.message(words)

    def faults_of_line(self, line: int) -> List[str]:
        """Returns why a line before those of the trace is not what is expected."""
        parts = self.parts(line)
        if not parts:
            return []
        found = fault_of_blanks(self.raw(line)) or self.forms.faults(self.words(line), parts)
        return found + ([f"The form: `{shown_form(parts)}`."] if found else [])

    def is_whole(self) -> bool:
        """Returns whether all lines before those of the trace are as expected."""
        trace = self.trace_line()
        return trace is not None and not any(map(self.faults_of_line, range(1, trace + 1)))

    def what(self, line: int) -> str:
        """Returns in words what belongs in a line."""
        trace = self.trace_line()
        if line == 1:
            return "the first line, with name, front and end"
        if line < self.pending_line:
            name = self.stations[line - 2].get("name")
            return f"station {line - 1} of {len(self.stations)}, `{printable(str(name))}`"
        if line == self.pending_line:
            return "`pending N`"
        if trace is None or line <= trace:
            return "`trace N`" if line == trace else f"message {line - self.pending_line - 1}, counted from 0"
        return f"line {line - trace} of the trace"

    def bad_line(self, line: int) -> List[str]:
        """Returns the lines of `BadLine`: what belongs there, and which word is wrong."""
        raw, trace = self.lines.raw, self.trace_line()
        count = None if trace is None else self.count(trace)
        if line > len(raw) or line == len(raw) and not raw[-1]:
            return [f"{self.lines.path} ends before line {line}. Here belongs {self.what(line)}.",
                    *self.counted(line)]
        shown = [self.lines.shown(line)]
        if trace is not None and count is not None and line > trace + count:
            return shown + [self.lines.shown(trace), f"The trace has its {count:,} lines before this one, which is "
                            "too much: nothing may follow."]
        if trace is not None and line > trace:
            found = self.bad_trace_line(line)
        else:
            found = self.other_part(line) or self.faults_of_line(line)
        if line == len(raw):
            found = ["The file ends in this line, which has no line end: was it cut?"] + found
        return shown + ([f"Here belongs {self.what(line)}.", *found] if found else [GONE])

    def counted(self, line: int) -> List[str]:
        """Returns the line that says how many messages or lines of the trace there are, if one is missing."""
        trace = self.trace_line()
        if trace is None or line <= self.pending_line:
            return []
        return [self.lines.shown(self.pending_line if line < trace else trace)] if line != trace else []

    def bad_trace_line(self, line: int) -> List[str]:
        """Returns why a line is none of a trace."""
        text = self.raw(line)
        if not 1 <= len(text) <= MAX_LINE_BYTES:
            return [f"It has {len(text):,} bytes, and 1 to {MAX_LINE_BYTES} are allowed."]
        found = re.search(r"[^ -~]", text)
        return [f"Column {found.start() + 1}: the byte 0x{ord(found.group()):02x} is no printed ASCII character."] \
            if found else []

    def other_part(self, line: int) -> List[str]:
        """Returns what is said by a line that belongs to another part: a count or the model is another one."""
        first, stations, trace = self.raw(line).split(" ")[0], len(self.stations), self.trace_line()
        if 1 < line < self.pending_line and first == "pending":
            return [f"The model has {stations} stations, the snapshot {line - 2}. {ANOTHER_MODEL}"]
        if line == self.pending_line and first == "station":
            return [f"The model has {stations} stations, the snapshot has more. {ANOTHER_MODEL}"]
        if trace is None or line <= self.pending_line:
            return []
        if line < trace and first == "trace":
            return [self.lines.shown(self.pending_line), f"Only {line - self.pending_line - 1:,} messages follow it."]
        if line == trace and first.isdigit():
            return [self.lines.shown(self.pending_line), "This is one more."]
        return []

    # what it holds

    def described(self) -> List[str]:
        """Returns what the snapshot holds, station by station; if it is none, its first line that is wrong."""
        if self.places.fault:
            return [f"{self.places.path} is no TOML."]
        bad = [line for line in range(1, (self.trace_line() or self.pending_line) + 1) if self.faults_of_line(line)][:1]
        if bad:
            return self.bad_line(bad[0])
        (front, end), lines = self.head(), self.count(self.trace_line() or 0) or 0
        who = self.texts(1)[1]
        found = [f"`{who}` at {front}, {'without an end' if end is None else f'with its end at {end}'}, "
                 f"after {lines:,} lines of its trace:"]
        found += [f"  {self.state_of(number)}" for number in range(1, len(self.stations) + 1)]
        return found + self.pending_messages()

    def state_of(self, station: int) -> str:
        """Returns what a station does at the front."""
        v, kind = self.values(station), self.texts(station + 1)[8]
        name = f"`{printable(str(self.stations[station - 1].get('name')))}`"
        if kind == "source":
            return f"{name} has made {v['SENT']:,} jobs, one every {v['LO']} to {v['HI']}."
        if kind == "server":
            return (f"{name} has {v['BUSY']} of {v['SERVERS']} servers busy, for {v['LO']} to {v['HI']} each; "
                    f"{v['line']:,} wait, with room for {v['ROOM']:,}; {v['DONE']:,} done, {v['LOST']:,} lost.")
        if kind == "delay":
            return f"{name} has passed on {v['PASSED']:,} jobs, holding each for {v['LO']} to {v['HI']}."
        if kind == "router":
            return f"{name} has passed on {v['PASSED']:,} jobs, by weights {' '.join(self.many(station, 'W'))}."
        mean = f", after {v['STAY'] / v['GOT']:.2f} on average" if v["GOT"] else ""
        return f"{name} has got {v['GOT']:,} jobs{mean}."

    def pending_messages(self) -> List[str]:
        """Returns how many messages are pending, and the sets among them."""
        lines = range(self.pending_line + 1, self.trace_line() or 0)
        sets = [words for words in map(self.texts, lines) if words[4] == "set"]
        found = [f"  {len(lines):,} messages are pending, {len(sets)} of them sets:" if sets else
                 f"  {len(lines):,} messages are pending, no sets among them."]
        for words in sets:
            receiver = int(words[3])
            known = 1 <= receiver <= len(self.stations)
            name = printable(str(self.stations[receiver - 1].get("name"))) if known else words[3]
            found.append(f"    at {words[0]}: {name} {' '.join(words[5:])}")
        return found

    # front, stations, messages

    def top(self, key: str, default: int) -> int:
        """Returns a number at the top of the model."""
        found: int = self.places.data.get(key, default)
        return found if is_integer(found) else default

    def model_lines(self, *places: Any) -> List[str]:
        """Returns the lines of the model at these places, as far as it has them."""
        found = [self.places.line(place) for place in places]
        return [self.places.shown(line) for line in found if line]

    def head(self) -> Tuple[int, Optional[int]]:
        """Returns the front and the end of a first line of the right form."""
        words = self.texts(1)
        return int(words[3]), None if words[5] == "-" else int(words[5])

    def bad_front(self) -> List[str]:
        """Returns the lines of `BadFront`: which of front, end and horizon are out of order."""
        if not self.is_whole():
            return []
        (front, end), horizon = self.head(), self.top("horizon", TIME_BOUND)
        found = self.model_lines(("horizon",))
        if end is not None and end >= horizon:
            return found + [f"The end {end} is not before the horizon, which is {horizon}: write `-` for no end."]
        if end is not None and front > end:
            return [f"The front {front} is beyond the end, which is {end}."]
        return found + [f"The front {front} is beyond the horizon, which is {horizon}. {ANOTHER_MODEL}"] \
            if front > horizon else []

    def values(self, station: int) -> Dict[str, int]:
        """Returns the numbers of a station's line by their names: those of its form, or the word before them."""
        words = self.texts(station + 1)
        parts = self.forms.station(station, words)
        names = [before if part == "N" else part for before, part in zip([""] + parts, parts)]
        return {name: int(word) for name, part, word in zip(names, parts, words)
                if part.isupper() and part not in ("J", "W")}

    def many(self, station: int, part: str) -> List[str]:
        """Returns the jobs or the weights of a station's line."""
        words = self.texts(station + 1)
        return [word for word, known in zip(words, self.forms.station(station, words)) if known == part]

    def unfit(self, station: int) -> List[str]:
        """Returns the lines of `Unfit`: all that does not fit the model."""
        if not 1 <= station <= len(self.stations):
            return []
        table, values = self.stations[station - 1], self.values(station)
        kind, said = table.get("kind"), self.texts(station + 1)[8]
        name = f"`{printable(str(table.get('name')))}`"
        if said != kind:
            return self.model_lines(("station", station, "kind")) + [
                f"{name} is a {kind} in the model, and here a {said}. {ANOTHER_MODEL}"]
        found = self.unfit_parameters(kind, values, station) + self.unfit_counts(table, values)
        if values.get("line", 0) > MAX_ROOM:
            found.append(f"{values['line']:,} jobs wait, and the most are {MAX_ROOM:,}.")
        if values.get("line") and values["BUSY"] < values["SERVERS"]:
            found.append(f"Jobs wait while a server is free: BUSY is {values['BUSY']}, SERVERS {values['SERVERS']}.")
        return found + [fault for word in self.many(station, "J") for fault in self.unfit_job(job_in(word))]

    def unfit_parameters(self, kind: str, values: Dict[str, int], station: int) -> List[str]:
        """Returns the parameters that are out of the ranges of a model."""
        found = []
        for key in ("servers", "room"):
            rule = self.keys[key].type
            if key.upper() in values and not in_range(rule_of(rule), values[key.upper()]):
                found.append(f"{key.upper()} is {values[key.upper()]}: {rule}.")
        if kind in RANGES and not in_range(rule_of(self.keys[RANGES[kind]].type), [values["LO"], values["HI"]]):
            found.append(f"LO and HI are {values['LO']} and {values['HI']}: {self.keys[RANGES[kind]].type}.")
        for link, weight in enumerate(self.many(station, "W"), 1):
            if not in_range(self.weight, int(weight)):
                found.append(f"The weight of link {link} is {weight}: it is {self.weight.least} to "
                             f"{self.weight.greatest:,}.")
        return found

    def unfit_counts(self, table: Dict[str, Any], values: Dict[str, int]) -> List[str]:
        """Returns the counts that are beyond their bounds."""
        handled, limit = values["handled"], self.top("limit", DEFAULT_LIMIT)
        jobs: Any = table.get("jobs")
        bounds = [("handled", limit, "the model's `limit`")]
        most_sent, said = MAX_SENDS * (handled + 1), f"{MAX_SENDS} times `handled` + 1"
        bounds += [("next", most_sent, said), ("drawn", most_sent, said)]
        bounds += [(name, handled, "`handled`") for name in ("DONE", "LOST", "PASSED", "GOT")]
        bounds += [("SENT", jobs if is_integer(jobs) else MAX_NUMBER, "the `jobs` of the source")]
        bounds += [("BUSY", MAX_SERVERS, "the most servers"), ("STAY", MAX_STAY_SUM - 1, "the greatest sum")]
        return [f"{name if name.isupper() else f'`{name}`'} is {values[name]}, and at most {most} may be: {what}."
                for name, most, what in bounds if values.get(name, 0) > most]

    def unfit_job(self, job: Job) -> List[str]:
        """Returns why a job cannot be one of the model's."""
        said = f"The job {job.source}.{job.number}.{job.born}"
        kind = self.stations[job.source - 1].get("kind") if 1 <= job.source <= len(self.stations) else None
        found = []
        if kind != "source":
            found.append(f"{said} has no source: station {job.source} is "
                         + (f"a {kind}." if kind else "not there."))
        if job.number >= MAX_JOBS:
            found.append(f"{said} has a count that no source comes to: it is below {MAX_JOBS:,}.")
        horizon = self.top("horizon", TIME_BOUND)
        if job.born >= horizon:
            found.append(f"{said} was made at the horizon or later, which is {horizon}.")
        return found

    def message(self, index: int) -> Message:
        """Returns a message whose line is of the right form."""
        words = self.texts(self.pending_line + 1 + index)
        job = job_in(words[5]) if words[4] in ("job", "done") else None
        time, sender, number, receiver = map(int, words[:4])
        return Message(time, sender, number, receiver, words[4], job)

    def bad_message(self, index: int) -> List[str]:
        """Returns the lines of `BadPending`: all that is wrong with the message."""
        message, (front, _), stations = self.message(index), self.head(), len(self.stations)
        found = self.out_of_order(index, message) if index else []
        if message.time < front:
            found.append(f"Its time {message.time} is before the front, which is {front}: that is over already.")
        if message.time >= TIME_BOUND:
            found.append(f"Its time {message.time} is too late: it is below {TIME_BOUND:,}.")
        if not 1 <= message.receiver <= stations:
            found.append(f"Its receiver {message.receiver} is no station: they are 1 to {stations}.")
        if message.sender > stations:
            found.append(f"Its sender {message.sender} is no station: they are 1 to {stations}, and 0 the analyst.")
        found += self.unfit_job(message.job) if message.job else []
        return found + self.bad_number(message) + self.too_many_ends(index, message)

    def out_of_order(self, index: int, message: Message) -> List[str]:
        """Returns the message before one that is not above it."""
        if message[:3] > self.message(index - 1)[:3]:
            return []
        return [f"{self.lines.shown(self.pending_line + index)}   (the message before it)",
                "Messages rise by time, then sender, then number, and no two have all three alike."]

    def bad_number(self, message: Message) -> List[str]:
        """Returns why a message's number is none that its sender has used."""
        if message.sender > len(self.stations):
            return []
        most = self.values(message.sender)["next"] if message.sender else MAX_SETS
        if message.number < most:
            return []
        if not message.sender:
            return [f"Its number {message.number} is no place in a list of decisions: it is below {MAX_SETS}."]
        return [f"{self.lines.shown(message.sender + 1)}   (its sender)",
                f"Its number {message.number} was not sent yet: `next` is {most}."]

    def too_many_ends(self, index: int, message: Message) -> List[str]:
        """Returns why a service cannot end: no job in service is left for it."""
        receiver = message.receiver
        if message.what != "done" or not 1 <= receiver <= len(self.stations):
            return []
        busy = self.values(receiver).get("BUSY")
        earlier = [self.message(at) for at in range(index)]
        ends = sum(other.what == "done" and other.receiver == receiver for other in earlier)
        if busy is None or ends < busy:
            return []
        return [f"{self.lines.shown(receiver + 1)}   (its receiver)",
                f"{ends} services end before this one, and {busy} jobs are in service."]
