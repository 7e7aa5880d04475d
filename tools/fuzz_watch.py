"""What docs/FORMATS_SCRIPT.md says of watches, written once more, and `watch` compared with `run`, for fuzz.py.

The due times are read off the traces of `run`. Each watch that makes its branch gives the script a fork, and a set at
the due time plus the lookahead. `run` of this longer script must write what `watch` writes.
"""
import random
import re
from collections import namedtuple

from fuzz_cases import Model, Station, made_set, model_text, mutated
from fuzz_live import Difference
from fuzz_model import expected_model
from fuzz_script import NAME, NUMBER, VALUES, Refused, decided

Watch = namedtuple("Watch", "line who station least new target parameter values")

MAX_WATCHES = 255
LIMIT_LINE = re.compile(rb"cloner: limit (\d+) met at station ([a-z0-9_]+) in clone ([a-z0-9_]+)\n")
WAITING = re.compile(rb"(?m)^\d+ ([a-z0-9_]+) .* wait=(\d+) ")
WITHOUT_MODEL = b"watch base desk wait 1 fork help set desk servers 2\n"


def made_chain(rng, servers, clones):
    """As many watches as there may be, or one more or less, each of the branch of the one before it or of `base`."""
    who, lines, is_chain = "base", [], rng.random() < 0.3
    room_left = MAX_WATCHES + 1 - clones
    for number in range(rng.choice([room_left, room_left, room_left + 1, MAX_WATCHES + 1])):
        station, target = rng.choice(servers).name, rng.choice(servers).name
        lines.append(f"watch {who} {station} wait {rng.choice([0, 1])} fork w{number} set {target} room {number % 7}")
        who = f"w{number}" if is_chain else who
    return lines


def made_lines(rng, model, book, seen):
    """Watches of the script's clones and of earlier branches, most of which are accepted; many wait for what comes."""
    horizon = model.top["horizon"]
    servers = [station for station in model.stations if station.kind == "server"]
    targets = [s for s in model.stations if s.kind in ("source", "server", "delay") or s.keys.get("by") == "weights"]
    if servers and rng.random() < 0.01:
        return made_chain(rng, servers, len(book.sets))
    known, lines = [name for name in book.sets if name not in book.ends], []
    for number in range(rng.choice([0, 1, 1, 2, 3, 5, 8]) if servers else rng.choice([0] * 9 + [1])):
        who = rng.choice(known) if known and rng.random() < 0.98 else rng.choice([*book.sets, "ghost"])
        station = rng.choice(servers) if servers and rng.random() < 0.98 else rng.choice(model.stations)
        least = rng.choice([0, 1, 1, 2, 3, 6])
        if seen and rng.random() < 0.8:
            name, least = rng.choice(seen)
            station = book.stations[name]
        target = station if rng.random() < 0.4 else rng.choice(targets or model.stations)
        new = f"w{number}" if rng.random() < 0.98 else rng.choice([*book.sets, *known, "w0"])
        names = [station.name, target.name]
        if rng.random() < 0.01:
            names[rng.randrange(2)] = "nowhere"
        change = made_set(rng, target, horizon).split(" ", 2)[2]
        lines.append(f"watch {who} {names[0]} wait {least} fork {new} set {names[1]} {change}")
        known.append(new)
    return lines


def made_watches(rng, model, book, out):
    """A file of watches for a model, a script's clones and the output of `run`; None if there is to be no file."""
    if rng.random() < 0.02:
        return None
    if not model or not book:
        return WITHOUT_MODEL
    seen = sorted({(name.decode(), int(wait)) for name, wait in WAITING.findall(out)})
    lines = made_lines(rng, model, book, seen)
    for _ in range(rng.choice([0, 0, 0, 1, 2])):
        lines.insert(rng.randint(0, len(lines)), rng.choice(["", "# watch base", " \t"]))
    if rng.random() < 0.1:
        lines = [line.replace(" ", rng.choice(["  ", "\t", " \t "])) + rng.choice(["", "\r", " "]) for line in lines]
    text = "\n".join(lines) + ("\n" if rng.random() < 0.9 else "")
    return mutated(rng, text) if rng.random() < 0.15 else text.encode()


def read_line(number, data):
    """The watch of a line, None if the line says nothing."""
    if any(byte >= 128 for byte in data):
        raise Refused(2)
    words = [word for word in re.split(r"[ \t]+", data.decode()) if word]
    if not words or words[0].startswith("#"):
        return None
    if [words[0], *words[3:4], *words[5:6], *words[7:8]] != ["watch", "wait", "fork", "set"]:
        raise Refused(3)
    if len(words) < 11 or len(words) - 10 != VALUES.get(words[9]):
        raise Refused(3)
    if not all(NAME.match(words[place]) for place in (1, 2, 6, 8)):
        raise Refused(3)
    numbers = [words[4], *words[10:]]
    if any(not NUMBER.match(word) or int(word) >= 2**32 for word in numbers):
        raise Refused(4)
    least, *values = map(int, numbers)
    return Watch(number, words[1], words[2], least, words[6], words[8], words[9], values)


def read_watches(data):
    """The error line that a file of watches must get alone, or its watches."""
    if len(data) > 1048576:
        return "cloner: watches: refusal 1 at line 0\n", None
    watches = []
    for number, line in enumerate(data.split(b"\n"), 1):
        try:
            watch = read_line(number, line[:-1] if line.endswith(b"\r") else line)
            if watch and len(watches) == MAX_WATCHES:
                raise Refused(5)
        except Refused as why:
            return f"cloner: watches: refusal {why} at line {number}\n", None
        watches += [watch] if watch else []
    return None, watches


def fit(watch, book):
    """Refuses a watch that does not fit the model and the clones; else notes its branch in the book."""
    if watch.who not in book.sets:
        raise Refused(3)
    if watch.who in book.ends:
        raise Refused(12)
    book.fork(watch.new, watch.who)
    if watch.station not in book.stations or watch.target not in book.stations:
        raise Refused(6)
    if book.stations[watch.station].kind != "server":
        raise Refused(7)
    book.set(watch.new, 0, watch.target, watch.parameter, watch.values)


def refused_line(watches, book):
    """The error line that watches must get over these clones, None if they fit."""
    for watch in watches:
        try:
            fit(watch, book)
        except Refused as why:
            return f"cloner: watch: refusal {why} at line {watch.line}\n"
    return None


def due_time(trace, watch, start):
    """When a watch of a clone is due: the first entry of its server, from the start on, at which enough jobs wait."""
    for line in trace.decode().splitlines()[1:]:
        words = line.split(" ")
        if words[1] == watch.station and int(words[0]) >= start and int(words[-3][5:]) >= watch.least:
            return int(words[0])
    return None


def watched_script(run, split, script, watches, model):
    """The script with the fork and the set of each branch that is made; None if a run of it does not end well."""
    traces, starts = None, {}
    for watch in watches:
        if traces is None or watch.who in starts and watch.who not in traces:
            ended = run(script)
            if ended.status:
                return None
            traces = split(ended.out)[0]
            starts = starts or dict.fromkeys(traces, 0)
        if watch.who not in starts:
            continue
        due = due_time(traces[watch.who], watch, starts[watch.who])
        if due is None or due + model.top["lookahead"] >= model.top["horizon"]:
            continue
        at = starts[watch.new] = due + model.top["lookahead"]
        values = " ".join(map(str, watch.values))
        script += f"\nfork {watch.new} from {watch.who}\n".encode()
        script += f"set {watch.new} at {at} {watch.target} {watch.parameter} {values}\n".encode()
    return script


def lifted(model):
    """The text of a model with the greatest limit."""
    stations = []
    for station in model.stations:
        stations.append(Station(station.name, station.kind))
        stations[-1].keys = {k: v for k, v in station.keys.items() if k not in ("name", "kind", "link")}
        stations[-1].links = station.links
    top = {key: value for key, value in model.top.items() if key != "station"}
    return model_text(Model({**top, "limit": 65536}, stations)).encode()


def check_beyond(runner, split, said, ended, script, model):
    """At status 7 the pair that is named is beyond the limit at the horizon."""
    found = LIMIT_LINE.fullmatch(ended.err)
    if ended.status != 7 or ended.out or not found or int(found[1]) != model.top.get("limit", 16384):
        raise Difference(f"{said}: status {ended.status} {ended.err[:200]!r}; a limit must be met")
    run = runner.run_script(script, lifted(model))
    if run.status:
        return
    trace = split(run.out)[0].get(found[3].decode(), b"")
    handled = [line for line in trace.splitlines()[1:] if line.split(b" ")[1] == found[2]]
    if len(handled) <= int(found[1]):
        raise Difference(f"{said}: {ended.err!r}, but {len(handled)} messages at the horizon")


def check_watched(runner, split, case, watches, model):
    """`watch` of watches that fit: what `run` writes of the longer script, or a limit."""
    script = watched_script(runner.run_script, split, case.script, watches, model)
    if script is None:
        script = watched_script(lambda text: runner.run_script(text, lifted(model)), split, case.script, watches, model)
    if script is None:
        return
    wanted = runner.run_script(script)
    for more in runner.options():
        got = runner.watch(*more)
        if wanted.status == 7:
            check_beyond(runner, split, f"`watch` {' '.join(more)}", got, script, model)
        elif got != wanted:
            raise Difference(f"`watch` {' '.join(more)}: status {got.status} {got.err[:200]!r}, {len(got.out)} bytes; "
                             f"`run` of {script[len(case.script):]!r}: {wanted.status} {wanted.err[:200]!r}, "
                             f"{len(wanted.out)} bytes")


def wanted_refusal(case, ended, book, make_end):
    """How `watch` must end if something is refused, and the watches; None if all is accepted."""
    if ended.status in (4, 5, 6):
        return ended, None
    if case.watches is None:
        return make_end(3, b"", b"cloner: cannot read the watches\n"), None
    line, watches = read_watches(case.watches)
    line = line or refused_line(watches, book)
    return line and make_end(9, b"", line.encode()), watches


def check_watch(runner, split, case, ended):
    """`watch` of the present case with watches made for it; unsure models are left out."""
    model = expected_model(case.model)[1]
    book = model and decided(case.script, model)[1]
    if not model and not ended.status:
        return
    case.watches = made_watches(random.Random(case.model + case.script), model, book, ended.out)
    runner.write_watches(case.watches)
    wanted, watches = wanted_refusal(case, ended, book, type(ended))
    if not wanted:
        check_watched(runner, split, case, watches, model)
        return
    for more in runner.options():
        got = runner.watch(*more)
        if got != wanted:
            raise Difference(f"`watch` {' '.join(more)}: status {got.status} {got.err[:200]!r}; it must be "
                             f"{wanted.status} {wanted.err!r}")
