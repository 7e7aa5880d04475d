"""Damaged snapshots, each with the refusal that it must get, for fuzz_save.py.

A row of a table changes one line, or the whole text, and states the fault without a look at any reader: number and
place, or None if the text is still a snapshot. Of two changed lines the fault is that which is tested first.
"""
import re

from fuzz_snapshot import MAX_NUMBER, MAX_FILE_BYTES, MAX_JOBS, MAX_SETS, MAX_STAY_SUM, TIME_BOUND, snapshot_text

RANK = {1: 0, 2: 1, 6: 2, 3: 3, 4: 4}
NUMBER, LETTERS = re.compile(r"[0-9.]+\Z"), re.compile(r"[a-z]")
FIRST_VALUE = 9


class Cut:
    """The lines of a snapshot's text, and where its parts begin."""

    def __init__(self, snapshot, net):
        self.snapshot, self.net = snapshot, net
        self.lines = snapshot_text(snapshot).split(b"\n")[:-1]
        self.pending = len(net.sites) + 1
        self.trace = self.pending + 1 + len(snapshot.pending)

    def words(self, at):
        """The words of a line."""
        return self.lines[at].decode().split(" ")

    def with_word(self, at, place, word):
        """A line with another word."""
        words = self.words(at)
        words[place] = str(word)
        return " ".join(words).encode()

    def place_of(self, at, name):
        """Where the line of a station has the number of this name."""
        kind = self.snapshot.saved[at - 1].kind
        names = {"source": "lo hi sent", "server": "servers room lo hi busy done lost", "delay": "lo hi passed",
                 "router": "passed", "sink": "got stay"}[kind].split()
        return {"next": 3, "drawn": 5, "handled": 7}.get(name) or FIRST_VALUE + names.index(name)

    def text(self, changed):
        """The text with some lines changed."""
        return b"".join(changed.get(at, line) + b"\n" for at, line in enumerate(self.lines))

    def sources(self):
        """The numbers of the sources, and those of the other stations and of none."""
        numbers = {site.number for site in self.net.sites if site.kind == "source"}
        return sorted(numbers), [n for n in range(len(self.net.sites) + 2) if n not in numbers]


# ---- lines that are not of the form


def spoiled_line(rng, line):
    """A line before those of the trace that is not of the form any more."""
    words = line.split(" ")
    numbers = [place for place, word in enumerate(words) if NUMBER.match(word)]
    letters = [place for place, word in enumerate(words) if LETTERS.match(word)]
    way, number, place = rng.randrange(13), rng.choice(numbers), rng.randrange(len(words))
    if way < 4:
        first, dot, rest = words[number].partition(".")
        words[number] = ["0" + first, "+" + first, "18446744073709551616", first + "x"][way] + dot + rest
    elif way == 4:
        words[number] += ".0"
    elif way == 5:
        words[rng.choice(letters or numbers)] = "Base"
    elif way == 6:
        del words[place]
    elif way == 7:
        words.append("1")
    else:
        return [line.replace(" ", "  ", 1), line.replace(" ", "\t", 1), line + " ", line + "\r", ""][way - 8]
    return " ".join(words)


def bad_line(rng, cut):
    """A line of the head, a station, a message or a count that is not of the form."""
    at = rng.randint(0, cut.trace)
    return at, spoiled_line(rng, cut.lines[at].decode()).encode(), (2, at + 1)


def long_number(rng, cut):
    """A number of 33 bits, where it is not the sum of a sink's stays."""
    at = rng.randint(0, cut.trace)
    words = cut.words(at)
    stay = len(words) - 1 if "sink" in words else None
    places = [place for place, word in enumerate(words) if NUMBER.match(word) and place != stay]
    place = rng.choice(places)
    first, dot, rest = words[place].partition(".")
    return at, cut.with_word(at, place, f"{MAX_NUMBER + 1}{dot}{rest}"), (2, at + 1)


def bad_trace_line(rng, cut):
    """A trace line that is empty, too long, or has a byte that is not printed."""
    if not cut.snapshot.lines:
        return None
    at = rng.randrange(cut.trace + 1, len(cut.lines))
    bad = [b"", b"x" * 201, b"5 desk\t", b"5 desk\x7f", b"5 d\xc3\xa9sk", b"5 desk\r"]
    return at, rng.choice(bad), (2, at + 1)


def other_trace_line(rng, cut):
    """A trace line that says nothing true, and is taken as it is."""
    if not cut.snapshot.lines:
        return None
    at = rng.randrange(cut.trace + 1, len(cut.lines))
    return at, rng.choice([b" ", b"~" * 200, b"clone x", b"report"]), None


def other_station(rng, cut):
    """The line of a station with another number."""
    at = rng.randrange(1, cut.pending)
    return at, cut.with_word(at, 1, rng.choice([at - 1, at + 1, MAX_NUMBER])), (2, at + 1)


# ---- front and end


def bad_front(rng, cut):
    """A front beyond the horizon or the end, or an end that is not below the horizon."""
    front, horizon = cut.snapshot.front, cut.net.horizon
    ways = [(3, horizon + 1), (3, MAX_NUMBER), (5, horizon), (5, MAX_NUMBER)] + ([(5, front - 1)] if front else [])
    return 0, cut.with_word(0, *rng.choice(ways)), (6, 0)


def good_end(rng, cut):
    """An end from the front on."""
    if cut.snapshot.front >= cut.net.horizon:
        return None
    return 0, cut.with_word(0, 5, rng.randrange(cut.snapshot.front, cut.net.horizon)), None


# ---- stations that do not fit


def values_beyond(saved, site, net):
    """Of each number of a station: values that do not fit, and values at the bound that do."""
    most, jobs = 16 * (saved.handled + 1), site.keys.get("jobs", 0)
    rows = {"next": ([most + 1, MAX_NUMBER], [most]), "drawn": ([most + 1, MAX_NUMBER], [most]),
            "handled": ([net.limit + 1], [net.limit])}
    least = 0 if saved.kind == "delay" else 1
    low, high = saved.values.get("lo"), saved.values.get("hi")
    above = high + 1 if high is not None else None
    more = {"source": {"sent": ([jobs + 1], [jobs]), "lo": ([0, above], [1])},
            "server": {"servers": ([0, 17], []), "room": ([4097], [4096]), "lo": ([0, above], [1]),
                       "busy": ([17], [16]), "done": ([saved.handled + 1], [saved.handled]),
                       "lost": ([saved.handled + 1], [saved.handled])},
            "delay": {"passed": ([saved.handled + 1], [saved.handled]), "lo": ([above], [0])},
            "router": {"passed": ([saved.handled + 1], [saved.handled])},
            "sink": {"got": ([saved.handled + 1], [saved.handled]),
                     "stay": ([MAX_STAY_SUM, 2**64 - 1], [MAX_STAY_SUM - 1])}}
    if low is not None:
        more[saved.kind]["hi"] = ([1000001] + ([low - 1] if low > least else []), [1000000])
    if saved.line:
        more["server"]["busy"][0].append(saved.values["servers"] - 1)
    return {**rows, **more[saved.kind]}


def one_value(rng, cut, beyond):
    """A number of a station beyond its bound, or at it."""
    at = rng.randrange(1, cut.pending)
    rows = values_beyond(cut.snapshot.saved[at - 1], cut.net.sites[at - 1], cut.net)
    name = rng.choice(sorted(name for name in rows if rows[name][not beyond]))
    value = rng.choice([value for value in rows[name][not beyond] if value is not None])
    return at, cut.with_word(at, cut.place_of(at, name), value), (3, at) if beyond else None


def unfit_value(rng, cut):
    """A number of a station beyond its bound."""
    return one_value(rng, cut, True)


def value_at_bound(rng, cut):
    """A number of a station at its bound, which is accepted."""
    return one_value(rng, cut, False)


def other_kind(rng, cut):
    """The shape of another kind."""
    at = rng.randrange(1, cut.pending)
    words = cut.words(at)[:8]
    shapes = [kind for kind in ("source 1 1 0", "delay 0 0 0", "sink 0 0", "server 1 0 1 1 0 0 0 line 0")
              if not kind.startswith(cut.snapshot.saved[at - 1].kind)]
    return at, f"{' '.join(words)} {rng.choice(shapes)}".encode(), (3, at)


def unfit_weight(rng, cut):
    """A weight out of its range."""
    routers = [site.number for site in cut.net.sites if site.kind == "router"]
    if not routers:
        return None
    at = rng.choice(routers)
    return at, cut.with_word(at, -1, rng.choice([0, 1001])), (3, at)


def unfit_job(rng, cut):
    """A job in a waiting line that cannot be one."""
    servers = [number for number, saved in enumerate(cut.snapshot.saved, 1) if saved.line]
    if not servers:
        return None
    at = rng.choice(servers)
    place = rng.randrange(len(cut.snapshot.saved[at - 1].line))
    job = bad_job(rng, cut, cut.snapshot.saved[at - 1].line[place])
    return at, cut.with_word(at, FIRST_VALUE + 9 + place, job), (3, at)


def long_line(rng, cut):
    """A waiting line of 4,097 jobs, or of the most that there may be."""
    servers = [number for number, saved in enumerate(cut.snapshot.saved, 1) if saved.kind == "server"]
    sources, _ = cut.sources()
    if not servers or not sources:
        return None
    at, count = rng.choice(servers), rng.choice([4096, 4097])
    words = cut.words(at)[:FIRST_VALUE + 7]
    words[FIRST_VALUE + 4] = "16"
    line = " ".join([*words, "line", str(count)] + [f"{sources[0]}.0.0"] * count)
    return at, line.encode(), (3, at) if count == 4097 else None


def bad_job(rng, cut, job):
    """A job of no source, beyond the greatest count, or born too late."""
    source, count, born = job
    return ".".join(map(str, rng.choice([(rng.choice(cut.sources()[1]), count, born), (source, MAX_JOBS, born),
                                         (source, count, cut.net.horizon), (MAX_NUMBER, count, born)])))


# ---- messages


def bad_message(rng, cut):
    """A message with one number that it cannot have."""
    if not cut.snapshot.pending:
        return None
    index = rng.randrange(len(cut.snapshot.pending))
    at, (_, sender, number, _, payload) = cut.pending + 1 + index, cut.snapshot.pending[index]
    none, most = len(cut.net.sites) + 1, cut.snapshot.saved[sender - 1].next if sender else MAX_SETS
    ways = [(0, TIME_BOUND), (0, MAX_NUMBER), (1, none), (1, MAX_NUMBER), (2, most), (3, 0), (3, none)]
    ways += [(0, cut.snapshot.front - 1)] if cut.snapshot.front else []
    ways += [(5, bad_job(rng, cut, payload[1]))] if payload[0] in ("job", "done") else []
    return at, cut.with_word(at, *rng.choice(ways)), (4, index)


def other_message(rng, cut):
    """A message that its receiver may not take, or with a change out of range: it is accepted."""
    messages = [index for index, message in enumerate(cut.snapshot.pending) if message[4][0] in ("tick", "set")]
    if not messages:
        return None
    at = cut.pending + 1 + rng.choice(messages)
    words = cut.words(at)
    words[3] = str(rng.randint(1, len(cut.net.sites)))
    words[4:] = rng.choice(["tick", "set room 4294967295", "set weight 1 3", "set every 0 0", "set servers 3"]).split()
    return at, " ".join(words).encode(), None


ONE_LINE = [bad_line, long_number, bad_trace_line, other_trace_line, other_station, bad_front, good_end, unfit_value,
            value_at_bound, other_kind, unfit_weight, unfit_job, long_line, bad_message, other_message]


# ---- whole texts


def no_last_line_end(_rng, cut):
    """The text without its last byte."""
    return cut.text({})[:-1], (2, len(cut.lines))


def no_last_line(_rng, cut):
    """The text without its last line."""
    return b"".join(line + b"\n" for line in cut.lines[:-1]), (2, len(cut.lines))


def cut_somewhere(rng, cut):
    """The beginning of the text."""
    text = cut.text({})
    part = text[:rng.randrange(len(text))]
    return part, (2, part.count(b"\n") + 1)


def surplus(rng, cut):
    """More than there may be."""
    more = rng.choice([b"\n", b"x", b"\r\n", b"trace 0\n", cut.lines[0] + b"\n"])
    return cut.text({}) + more, (2, len(cut.lines) + 1)


def other_count(rng, cut):
    """A number of messages or lines that is not theirs."""
    at = rng.choice([cut.pending, cut.trace])
    count = int(cut.words(at)[1])
    other = rng.choice([count + 1, count - 1, MAX_NUMBER])
    last = cut.trace if at == cut.pending else len(cut.lines)
    if other == -1:
        return None
    return cut.text({at: cut.with_word(at, 1, other)}), (2, last + (other > count))


def with_messages(cut, lines):
    """The text with other messages."""
    head = [*cut.lines[:cut.pending], b"pending %d" % len(lines)]
    return b"".join(line + b"\n" for line in [*head, *lines, *cut.lines[cut.trace:]])


def equal_keys(rng, cut):
    """A message twice."""
    lines = cut.lines[cut.pending + 1:cut.trace]
    if not lines:
        return None
    index = rng.randrange(len(lines))
    return with_messages(cut, [*lines[:index + 1], *lines[index:]]), (4, index + 1)


def falling_keys(rng, cut):
    """Two messages in the other order."""
    lines = cut.lines[cut.pending + 1:cut.trace]
    if len(lines) < 2:
        return None
    index = rng.randrange(len(lines) - 1)
    lines[index:index + 2] = [lines[index + 1], lines[index]]
    return with_messages(cut, lines), (4, index + 1)


def too_many_ends(rng, cut):
    """One end of a service more than jobs in service, or as many as these."""
    servers = [number for number, saved in enumerate(cut.snapshot.saved, 1) if saved.kind == "server"]
    senders = [number for number, saved in enumerate(cut.snapshot.saved, 1) if saved.next]
    sources, _ = cut.sources()
    if not servers or not senders:
        return None
    server, sender, pending = rng.choice(servers), rng.choice(senders), cut.snapshot.pending
    busy = cut.snapshot.saved[server - 1].values["busy"]
    free = busy - sum(message[3] == server and message[4][0] == "done" for message in pending)
    last, more = max([cut.snapshot.front, *(message[0] for message in pending)]), rng.choice([0, 1])
    lines = [f"{last + step} {sender} 0 {server} done {sources[0]}.0.0".encode() for step in range(1, free + 1 + more)]
    fault = (4, len(pending) + free) if more else None
    return with_messages(cut, cut.lines[cut.pending + 1:cut.trace] + lines), fault


def longest(rng, cut):
    """A text of the greatest length, or one byte more."""
    more = rng.choice([0, 1])
    head = cut.lines[:cut.trace]
    size = MAX_FILE_BYTES + more - sum(map(len, head)) - len(head)
    count = size // 201 + 1
    body = size - len(b"trace %d\n" % count)
    lines = [b"y" * (body // count - 1)] * count
    lines[0] += b"y" * (body % count)
    if len(lines[0]) > 200:
        return None
    text = b"".join(line + b"\n" for line in [*head, b"trace %d" % count, *lines])
    return text, (1, 0) if more else None


WHOLE_TEXT = [no_last_line_end, no_last_line, cut_somewhere, surplus, other_count, equal_keys, falling_keys,
              too_many_ends]


def first_of(faults):
    """The fault that is tested first, None if there is none."""
    return min((fault for fault in faults if fault), key=lambda fault: (RANK[fault[0]], fault[1]), default=None)


def damaged(rng, cut):
    """A damaged text with what was done to it and the fault that it must get; None if there is nothing to damage."""
    if rng.random() < 0.004:
        rows, made = [longest], longest(rng, cut)
    elif rng.random() < 0.3:
        rows = [rng.choice(WHOLE_TEXT)]
        made = rows[0](rng, cut)
    else:
        rows = [rng.choice(ONE_LINE) for _ in range(rng.choice([1, 1, 2, 3]))]
        made = changed_lines(cut, [row(rng, cut) for row in rows])
    if not made:
        return None
    return (*made, " and ".join(row.__name__ for row in rows))


def changed_lines(cut, changes):
    """The text with changes of different lines, and the fault; None if there are none or two are of one line."""
    changes = [change for change in changes if change]
    if not changes or len({at for at, _, _ in changes}) < len(changes):
        return None
    return cut.text({at: line for at, line, _ in changes}), first_of([fault for _, _, fault in changes])
