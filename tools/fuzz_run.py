"""What docs/FORMATS_MODEL.md says of stations, messages and draws, written once more as a slow simulator of one clone.

It works from one heap of messages, and knows no windows and no sharing. fuzz_save.py compares snapshots with it.
"""
import heapq
import re

from fuzz_script import TAKEN, in_range

WORD, LONG_WORD = (1 << 32) - 1, (1 << 64) - 1
DEFAULT_LIMIT = 16384


class LimitMet(Exception):
    """A station would handle more messages than the limit; its name."""


class Draws:
    """The words of the stream of a station, PCG32, from word number `count` on."""

    def __init__(self, seed, stream, count):
        self.increment, self.count = (stream << 1 | 1) & LONG_WORD, count
        self.seed, self.state = seed, None

    def step(self, state):
        """The next state of the generator."""
        return state * 6364136223846793005 + self.increment & LONG_WORD

    def word(self):
        """The next word."""
        if self.state is None:
            self.state = self.step(self.seed + self.increment & LONG_WORD)
            for _ in range(self.count):
                self.state = self.step(self.state)
        old, self.state = self.state, self.step(self.state)
        self.count += 1
        mixed, turn = (old >> 18 ^ old) >> 27 & WORD, old >> 59
        return (mixed >> turn | mixed << (32 - turn)) & WORD

    def between(self, low, high):
        """A number of a range."""
        return low + self.word() % (high - low + 1)

    def pick(self, weights):
        """The place of a link, drawn by weight; with one link there is no choice."""
        rest, place = self.word() % sum(weights) if len(weights) > 1 else 0, 0
        while rest >= weights[place]:
            rest -= weights[place]
            place += 1
        return place


class Site:
    """A station of a model: what does not change."""

    def __init__(self, number, station, number_of, top):
        self.number, self.name, self.kind, self.keys = number, station.name, station.kind, station.keys
        self.links = [(number_of[link["to"]], link["delay"]) for link in station.links]
        self.weights = [link.get("weight", 1) for link in station.links]
        self.seed, self.stream = top.get("seed", 0), station.keys.get("stream", number)
        self.by_class = station.keys.get("order") == "class"
        self.job_class = station.keys.get("class", 1)
        self.station = station

    def takes(self, parameter, values):
        """Whether the station takes a set with these values."""
        taken = parameter in TAKEN.get(self.kind, ()) and self.keys.get("by") != "turn"
        return taken and in_range(self.station, parameter, values)


class Net:
    """A valid model, with its stations by number from 1."""

    def __init__(self, model):
        number_of = {station.name: number for number, station in enumerate(model.stations, 1)}
        self.horizon, self.limit = model.top["horizon"], model.top.get("limit", DEFAULT_LIMIT)
        self.shows_class = model.top.get("format", 1) == 2
        self.sites = [Site(number, station, number_of, model.top) for number, station in enumerate(model.stations, 1)]
        self.number_of = number_of

    def site(self, number):
        """The station of a number; None if there is none."""
        return self.sites[number - 1] if 1 <= number <= len(self.sites) else None

    def job_text(self, job):
        """A job as a trace shows it."""
        source = self.site(job[0])
        return f"{source.name}.{job[1]}" + (f":{source.job_class}" if self.shows_class else "")


class State:
    """The state of a station: messages sent, draws, messages handled, and the numbers of its kind.

    A message is (time, sender, number, receiver, payload), a payload a tuple that begins with its word, and a job is
    (source, count, born).
    """

    def __init__(self, site, sent_messages=0, drawn=0, handled=0, values=None, line=()):
        self.site, self.next, self.handled = site, sent_messages, handled
        self.draws = Draws(site.seed, site.stream, drawn)
        self.values, self.line, self.sends = dict(values or opening(site)), list(line), []

    def send(self, time, receiver, payload):
        """Sends a message, with the next number."""
        self.sends.append((time, self.site.number, self.next, receiver, payload))
        self.next += 1

    def route(self, job, now, drawn=None):
        """Sends a job over a link; `drawn` names the range of what is added to the time, drawn after the link."""
        weights = self.values.get("weights", self.site.weights)
        turn = self.values.get("passed", 0) % len(weights)
        place = turn if self.site.keys.get("by") == "turn" else self.draws.pick(weights)
        receiver, delay = self.site.links[place]
        more = self.draws.between(*drawn) if drawn else 0
        self.send(now + more + delay, receiver, ("job", job))

    def range(self):
        """The range from which the station draws."""
        return self.values["lo"], self.values["hi"]

    def start(self, job, now):
        """Begins the service of a job."""
        self.values["busy"] += 1
        self.send(now + self.draws.between(*self.range()), self.site.number, ("done", job))

    def start_next(self, now, class_of):
        """Begins the service of the next job in line if a server is free; whether there was one."""
        if not self.line or self.values["busy"] >= self.values["servers"]:
            return False
        order = [class_of(job) for job in self.line] if self.site.by_class else [1]
        self.start(self.line.pop(order.index(min(order))), now)
        return True

    def handle(self, message, class_of):
        """Takes a message in: what is sent."""
        time, _, _, _, payload = message
        self.sends, self.handled = [], self.handled + 1
        if payload[0] == "set":
            self.change(payload[1], payload[2], time, class_of)
        else:
            known = getattr(self, f"{self.site.kind}_{payload[0]}", None)
            if known:
                known(*payload[1:], time, *([class_of] if payload[0] == "done" else []))
        return self.sends

    def source_tick(self, now):
        """A source makes a job."""
        job = (self.site.number, self.values["sent"], now)
        self.values["sent"] += 1
        self.route(job, now)
        if self.values["sent"] < self.site.keys["jobs"]:
            self.send(now + self.draws.between(*self.range()), self.site.number, ("tick",))

    def server_job(self, job, now):
        """A job arrives at a server."""
        if self.values["busy"] < self.values["servers"]:
            self.start(job, now)
        elif len(self.line) < self.values["room"]:
            self.line.append(job)
        else:
            self.values["lost"] += 1

    def server_done(self, job, now, class_of):
        """A service ends; at a server with nobody in service nothing happens."""
        if self.values["busy"]:
            self.values["busy"] -= 1
            self.values["done"] += 1
            self.route(job, now)
            self.start_next(now, class_of)

    def delay_job(self, job, now):
        """A job arrives at a delay."""
        self.values["passed"] += 1
        self.route(job, now, self.range())

    def router_job(self, job, now):
        """A job arrives at a router."""
        self.route(job, now)
        self.values["passed"] += 1

    def sink_job(self, job, now):
        """A job leaves."""
        self.values["got"] += 1
        self.values["stay"] += max(now - job[2], 0)

    def change(self, parameter, values, now, class_of):
        """Takes a changed parameter, if the station takes it."""
        if not self.site.takes(parameter, values):
            return
        if parameter == "weight":
            self.values["weights"][values[0] - 1] = values[1]
        elif parameter in ("servers", "room"):
            self.values[parameter] = values[0]
            while parameter == "servers" and self.start_next(now, class_of):
                pass
        else:
            self.values["lo"], self.values["hi"] = values

    def counts(self):
        """The counts as a trace shows them."""
        shown = {**self.values, "wait": len(self.line)}
        names = {"source": ["sent"], "server": ["busy", "wait", "done", "lost"], "delay": ["passed"],
                 "router": ["passed"], "sink": ["got", "stay"]}[self.site.kind]
        return " ".join(f"{name}={shown[name]}" for name in names)


def opening(site):
    """The numbers of a station before its first message."""
    keys, low_high = site.keys, {}
    for name in ("every", "service", "hold"):
        if name in keys:
            low_high = {"lo": keys[name][0], "hi": keys[name][1]}
    return {"source": {**low_high, "sent": 0},
            "server": {"servers": keys.get("servers"), "room": keys.get("room"), **low_high, "busy": 0, "done": 0,
                       "lost": 0},
            "delay": {**low_high, "passed": 0},
            "router": {"passed": 0, "weights": list(site.weights)},
            "sink": {"got": 0, "stay": 0}}[site.kind]


class World:
    """The stations of one clone, the messages that are pending, and the trace so far."""

    def __init__(self, net, states, pending):
        self.net, self.states, self.pending, self.trace = net, states, list(pending), []
        heapq.heapify(self.pending)

    def class_of(self, job):
        """The class of a job."""
        return self.net.site(job[0]).job_class

    def turn(self):
        """Handles the first message."""
        message = heapq.heappop(self.pending)
        state = self.states[message[3] - 1]
        if state.handled >= self.net.limit:
            raise LimitMet(state.site.name)
        for sent in state.handle(message, self.class_of):
            heapq.heappush(self.pending, sent)
        self.trace.append(self.line(message, state))

    def run_to(self, bound):
        """Handles all messages before a time."""
        while self.pending and self.pending[0][0] < bound:
            self.turn()

    def line(self, message, state):
        """The line of a message in the trace."""
        time, sender, number, _, payload = message
        name = self.net.site(sender).name if sender else "analyst"
        words = [payload[0]]
        if payload[0] in ("job", "done"):
            words.append(self.net.job_text(payload[1]))
        elif payload[0] == "set":
            words += [payload[1], *map(str, payload[2])]
        return f"{time} {state.site.name} {name} {number} {' '.join(words)} {state.counts()}"


def opened(net, changes):
    """The world of a clone before its first message; changes are (time, station, parameter, values) in list order."""
    states = [State(site) for site in net.sites]
    pending = [(time, 0, number, net.number_of[station], ("set", parameter, values))
               for number, (time, station, parameter, values) in enumerate(changes)]
    for state in states:
        if state.site.kind == "source" and state.site.keys["jobs"]:
            state.send(state.draws.between(*state.range()), state.site.number, ("tick",))
            pending += state.sends
    return World(net, states, pending)


def clones_of(script):
    """The clones of a script whose decisions are all accepted: of each the list of its changes, and its end or None."""
    lists, ends = {"base": []}, {"base": None}
    for line in script.decode().split("\n"):
        words = [word for word in re.split(r"[ \t]+", line[:-1] if line.endswith("\r") else line) if word]
        if words[:1] == ["fork"]:
            lists[words[1]], ends[words[1]] = list(lists[words[3]]), None
        elif words[:1] == ["set"]:
            lists[words[1]].append((int(words[3]), words[4], words[5], tuple(map(int, words[6:]))))
        elif words[:1] == ["end"]:
            ends[words[1]] = int(words[3])
    return {name: (changes, ends[name]) for name, changes in lists.items()}
