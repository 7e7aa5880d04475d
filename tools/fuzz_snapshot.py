"""What docs/FORMATS_SNAPSHOT.md says, written once more over fuzz_run.py: writing, reading and resuming one.

The text is read line by line with patterns, and a fault is raised where the page says. Nothing is known here of how
`cloner` reads.
"""
import re
from collections import namedtuple

from fuzz_run import LimitMet, State, World
from fuzz_script import VALUES

MAX_FILE_BYTES = 1048576
MAX_NUMBER, MAX_STAY = 2**32 - 1, 2**64 - 1
MAX_JOBS, MAX_STAY_SUM, TIME_BOUND, MAX_SETS = 1000000, 2**48, 2**31, 256
SHAPES = {"source": ["lo", "hi", "sent"], "server": ["servers", "room", "lo", "hi", "busy", "done", "lost"],
          "delay": ["lo", "hi", "passed"], "router": ["passed"], "sink": ["got", "stay"]}
NUMBER = r"(0|[1-9]\d{0,19})"
HEAD = re.compile(rf"snapshot ([a-z][a-z0-9_]{{0,15}}) front {NUMBER} end (-|{NUMBER})\Z", re.A)
STATION = re.compile(rf"station {NUMBER} next {NUMBER} drawn {NUMBER} handled {NUMBER} (.+)\Z", re.A)
MESSAGE = re.compile(rf"{NUMBER} {NUMBER} {NUMBER} {NUMBER} (.+)\Z", re.A)
JOB = re.compile(rf"{NUMBER}\.{NUMBER}\.{NUMBER}\Z", re.A)
PRINTED = re.compile(rb"[ -~]{1,200}\Z")

Saved = namedtuple("Saved", "next drawn handled kind values line")
Snapshot = namedtuple("Snapshot", "who front end saved pending lines")


class Fault(Exception):
    """The number and the place of a refusal of a snapshot."""


class NotOfTheForm(Exception):
    """A line is not what is expected."""


# ---- writing


def job_word(job):
    """A job as a snapshot shows it."""
    return ".".join(map(str, job))


def saved_of(state):
    """The data of a state."""
    values = {name: list(value) if name == "weights" else value for name, value in state.values.items()}
    return Saved(state.next, state.draws.count, state.handled, state.site.kind, values, list(state.line))


def snapshot_of(who, front, end, world):
    """The snapshot of a world that was run to a front."""
    return Snapshot(who, front, end, [saved_of(state) for state in world.states], sorted(world.pending),
                    [line.encode() for line in world.trace])


def station_line(number, saved):
    """The line of a station."""
    words = [saved.kind, *(saved.values[name] for name in SHAPES[saved.kind]), *saved.values.get("weights", [])]
    if saved.kind == "server":
        words += ["line", len(saved.line), *map(job_word, saved.line)]
    return (f"station {number} next {saved.next} drawn {saved.drawn} handled {saved.handled} "
            + " ".join(map(str, words)))


def message_line(message):
    """The line of a pending message."""
    payload = message[4]
    words = [payload[0]]
    if payload[0] in ("job", "done"):
        words.append(job_word(payload[1]))
    elif payload[0] == "set":
        words += [payload[1], *payload[2]]
    return " ".join(map(str, [*message[:4], *words]))


def snapshot_text(snapshot):
    """The text of a snapshot."""
    end = "-" if snapshot.end is None else snapshot.end
    lines = [f"snapshot {snapshot.who} front {snapshot.front} end {end}"]
    lines += [station_line(number, saved) for number, saved in enumerate(snapshot.saved, 1)]
    lines += [f"pending {len(snapshot.pending)}", *map(message_line, snapshot.pending)]
    lines += [f"trace {len(snapshot.lines)}"]
    return b"".join(line + b"\n" for line in [*(line.encode() for line in lines), *snapshot.lines])


# ---- reading


def number_in(word, most=MAX_NUMBER):
    """The number that a word writes."""
    if not re.match(NUMBER + r"\Z", word, re.A) or int(word) > most:
        raise NotOfTheForm
    return int(word)


def matched(pattern, text):
    """The groups of a pattern, which must fit the whole text."""
    found = pattern.match(text)
    if not found:
        raise NotOfTheForm
    return found.groups()


def job_in(word):
    """The job that a word writes."""
    return tuple(map(number_in, matched(JOB, word)))


def read_head(text):
    """Name, front and end of the first line."""
    who, front, end, _ = matched(HEAD, text)
    return who, number_in(front), None if end == "-" else number_in(end)


def read_station(text, site):
    """The data in the line of this station."""
    number, *counts, shape = matched(STATION, text)
    kind, *words = shape.split(" ")
    if number_in(number) != site.number or kind not in SHAPES or len(words) < len(SHAPES[kind]):
        raise NotOfTheForm
    most = [MAX_STAY if name == "stay" else MAX_NUMBER for name in SHAPES[kind]]
    values, rest, line = dict(zip(SHAPES[kind], map(number_in, words, most))), words[len(SHAPES[kind]):], []
    if kind == "router":
        values["weights"] = list(map(number_in, rest))
        if len(rest) != len(site.links):
            raise NotOfTheForm
    elif kind == "server":
        if rest[:1] != ["line"] or len(rest) < 2 or number_in(rest[1]) != len(rest) - 2:
            raise NotOfTheForm
        line = list(map(job_in, rest[2:]))
    elif rest:
        raise NotOfTheForm
    return Saved(*map(number_in, counts), kind, values, line)


def read_payload(text):
    """The payload that the end of a message's line writes."""
    word, *rest = text.split(" ")
    if word == "tick" and not rest:
        return ("tick",)
    if word in ("job", "done") and len(rest) == 1:
        return word, job_in(rest[0])
    if word == "set" and rest and VALUES.get(rest[0]) == len(rest) - 1:
        return word, rest[0], tuple(map(number_in, rest[1:]))
    raise NotOfTheForm


def read_message(text):
    """The message of a line."""
    *key, payload = matched(MESSAGE, text)
    return *map(number_in, key), read_payload(payload)


def read_count(text, word):
    """The number in a line `pending N` or `trace N`."""
    return number_in(matched(re.compile(rf"{word} (\d+)\Z", re.A), text)[0])


def read_trace_line(data):
    """A line of the trace, which is taken as it is."""
    if not PRINTED.match(data):
        raise NotOfTheForm
    return data


class Lines:
    """The lines of a text, one after the other; the part after the last line feed is no line."""

    def __init__(self, data):
        self.parts, self.number = data.split(b"\n"), 0

    def next(self, read, *more):
        """What is read from the next line, where bytes are characters; a fault with its number if it is not so."""
        self.number += 1
        if self.number >= len(self.parts):
            raise Fault(2, self.number)
        try:
            return read(self.parts[self.number - 1].decode("latin-1"), *more)
        except NotOfTheForm:
            raise Fault(2, self.number) from None

    def all(self, count, read):
        """So many lines more, given up at the first one that is none."""
        found = []
        while len(found) < count:
            found.append(self.next(read))
        return found


def read_lines(data, net):
    """The snapshot that the lines of a text write."""
    lines = Lines(data)
    who, front, end = lines.next(read_head)
    saved = [lines.next(read_station, site) for site in net.sites]
    pending = lines.all(lines.next(read_count, "pending"), read_message)
    trace = lines.all(lines.next(read_count, "trace"), lambda text: read_trace_line(text.encode("latin-1")))
    if lines.number + 1 != len(lines.parts) or lines.parts[-1]:
        raise Fault(2, lines.number + 1)
    return Snapshot(who, front, end, saved, pending, trace)


def is_job(net, job):
    """Whether a job may be one of the model's."""
    source = net.site(job[0])
    return bool(source) and source.kind == "source" and job[1] < MAX_JOBS and job[2] < net.horizon


def are_parameters(saved, site):
    """Whether the parameters of a station are in their ranges."""
    low, most = (0 if saved.kind == "delay" else 1), saved.values
    if "lo" in most and not low <= most["lo"] <= most["hi"] <= 1000000:
        return False
    if saved.kind == "server":
        return 1 <= most["servers"] <= 16 and most["room"] <= 4096
    return all(1 <= weight <= 1000 for weight in most.get("weights", []))


def fits(saved, site, net):
    """Whether data may be that of a state of this station."""
    if saved.kind != site.kind or saved.handled > net.limit or not are_parameters(saved, site):
        return False
    if max(saved.next, saved.drawn) > 16 * (saved.handled + 1):
        return False
    if any(saved.values.get(name, 0) > saved.handled for name in ("done", "lost", "passed", "got")):
        return False
    if saved.values.get("sent", 0) > site.keys.get("jobs", 0) or saved.values.get("stay", 0) >= MAX_STAY_SUM:
        return False
    if len(saved.line) > 4096 or saved.line and saved.values["busy"] < saved.values["servers"]:
        return False
    return saved.values.get("busy", 0) <= 16 and all(is_job(net, job) for job in saved.line)


def is_bad(snapshot, index, net):
    """Whether a pending message is bad."""
    time, sender, number, receiver, payload = snapshot.pending[index]
    if index and (time, sender, number) <= snapshot.pending[index - 1][:3]:
        return True
    if not snapshot.front <= time < TIME_BOUND:
        return True
    if not net.site(receiver) or sender and not net.site(sender):
        return True
    if payload[0] in ("job", "done") and not is_job(net, payload[1]):
        return True
    if number >= (snapshot.saved[sender - 1].next if sender else MAX_SETS):
        return True
    if payload[0] == "done" and net.site(receiver).kind == "server":
        before = snapshot.pending[:index]
        ends = [message for message in before if message[3] == receiver and message[4][0] == "done"]
        return len(ends) >= snapshot.saved[receiver - 1].values["busy"]
    return False


def read_snapshot(data, net):
    """The snapshot that a text writes for a model; raises the first fault."""
    if len(data) > MAX_FILE_BYTES:
        raise Fault(1, 0)
    snapshot = read_lines(data, net)
    last = net.horizon if snapshot.end is None else snapshot.end
    if snapshot.front > min(net.horizon, last) or snapshot.end is not None and last >= net.horizon:
        raise Fault(6, 0)
    for site, saved in zip(net.sites, snapshot.saved):
        if not fits(saved, site, net):
            raise Fault(3, site.number)
    for index in range(len(snapshot.pending)):
        if is_bad(snapshot, index, net):
            raise Fault(4, index)
    return snapshot


# ---- what `save` and `resume` must write


def opened_again(snapshot, net):
    """The world that a snapshot says, with an empty trace."""
    states = [State(site, saved.next, saved.drawn, saved.handled, saved.values, saved.line)
              for site, saved in zip(net.sites, snapshot.saved)]
    return World(net, states, snapshot.pending)


def limit_line(net, met, who):
    """The error line of status 7."""
    return f"cloner: limit {net.limit} met at station {met} in clone {who}\n".encode()


def saved_end(world, net, who, until, end):
    """Status, output and error line of `save`; the world is not run yet."""
    front = min(until, net.horizon, net.horizon if end is None else end)
    try:
        world.run_to(front)
    except LimitMet as met:
        return 7, b"", limit_line(net, met, who)
    text = snapshot_text(snapshot_of(who, front, end, world))
    return (11, b"", b"cloner: snapshot too long\n") if len(text) > MAX_FILE_BYTES else (0, text, b"")


def resumed_end(data, net):
    """Status, output and error line of `resume`."""
    try:
        snapshot = read_snapshot(data, net)
    except Fault as fault:
        number, place = fault.args
        return 10, b"", f"cloner: snapshot: refusal {number} at {place}\n".encode()
    world = opened_again(snapshot, net)
    try:
        world.run_to(net.horizon if snapshot.end is None else snapshot.end)
    except LimitMet as met:
        return 7, b"", limit_line(net, met, snapshot.who)
    lines = [b"clone " + snapshot.who.encode(), *snapshot.lines, *(line.encode() for line in world.trace)]
    return 0, b"".join(line + b"\n" for line in lines), b""
