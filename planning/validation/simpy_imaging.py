#!/usr/bin/python3
"""The imaging department of examples/ as a SimPy model: one process a patient.

    planning/validation/simpy_imaging.py [--seed N] [--words cloner|python] [--trace FILE]

It needs SimPy 3, for instance Debian's python3-simpy3. It has the model's numbers written out a second
time and does not read examples/imaging.toml. It follows docs/FORMATS_MODEL.md also for simultaneous events: those of
the smaller sender come first, and of one sender those that were sent first. With --words python it draws from Python's
`random`. With --words cloner it draws what `cloner` draws for the same seed, and then the traces must be equal.
"""
import argparse
import random
import sys

try:
    import simpy
except ModuleNotFoundError:
    sys.exit("this Python has no SimPy: apt-get install python3-simpy3, then run the script with /usr/bin/python3")

HORIZON = 20160
NAMES = "analyst inpatients outpatients registration split new_scanner old_scanner check beds exit".split()
SENDER = {name: number for number, name in enumerate(NAMES)}
FIRST_PRIORITY = 2  # SimPy's own events have the priorities 0 and 1, and come before all messages of their time
WORD = (1 << 32) - 1
LONG_WORD = (1 << 64) - 1


class PythonWords:
    """Random numbers as a SimPy planner draws them: one generator for the whole run."""

    def __init__(self, seed):
        self.random = random.Random(seed)

    def between(self, _station, pair):
        """Returns a whole number of the range, each with the same chance."""
        return self.random.randint(*pair)

    def pick(self, _station, weights):
        """Returns the place of a link, drawn by weight."""
        return self.random.choices(range(len(weights)), weights)[0]


class ClonerWords:
    """The random numbers of `cloner`: PCG32, with a stream for each station."""

    def __init__(self, seed):
        self.states = {}
        for name, stream in SENDER.items():
            increment = stream << 1 | 1
            self.states[name] = (self.step(seed + increment & LONG_WORD, increment), increment)

    @staticmethod
    def step(state, increment):
        """Returns the next state of the generator."""
        return state * 6364136223846793005 + increment & LONG_WORD

    def word(self, station):
        """Returns the next word of the station's stream."""
        state, increment = self.states[station]
        self.states[station] = (self.step(state, increment), increment)
        mixed, turn = (state >> 18 ^ state) >> 27 & WORD, state >> 59
        return (mixed >> turn | mixed << (32 - turn)) & WORD

    def between(self, station, pair):
        """Returns a whole number of the range."""
        low, high = pair
        return low + self.word(station) % (high - low + 1)

    def pick(self, station, weights):
        """Returns the place of a link, drawn by weight."""
        rest = self.word(station) % sum(weights)
        place = 0
        while rest >= weights[place]:
            rest -= weights[place]
            place += 1
        return place


class Message(simpy.events.Event):
    """A timeout. Of those of one time, the smaller sender's is handled first, unless SimPy's own order is wanted."""

    def __init__(self, department, sender, delay):
        super().__init__(department.environment)
        self.sender, self.number = sender, department.sent[sender]
        department.sent[sender] += 1
        self._ok, self._value = True, None
        priority = simpy.events.NORMAL if department.own_order else FIRST_PRIORITY + SENDER[sender]
        self.env.schedule(self, priority, delay)


class Patient:
    """A patient: the name as in a trace, the class, and the time of coming."""

    def __init__(self, source, born):
        self.name, self.urgency, self.born = f"{source.name}.{source.count}:{source.urgency}", source.urgency, born


class Source:
    """A station at which patients appear."""

    def __init__(self, name, urgency, every, way):
        self.name, self.urgency, self.every, self.way = name, urgency, every, way
        self.count = 0

    def change(self, _parameter, values):
        """Changes the time between two patients."""
        self.every = values

    def counts(self):
        """Returns the counts as a trace of `cloner` shows them."""
        return f"sent={self.count}"


class Router:
    """A station that sends patients on by weights; a link is a station and a delay."""

    def __init__(self, name, links, weights):
        self.name, self.links, self.weights = name, links, weights
        self.passed = 0

    def change(self, _parameter, values):
        """Changes the weight of a link."""
        self.weights[values[0] - 1] = values[1]

    def counts(self):
        """Returns the counts as a trace of `cloner` shows them."""
        return f"passed={self.passed}"


class Server:
    """A station with places and chairs, and what happened there."""

    def __init__(self, name, environment, places, room, service, by_class=False):
        self.environment = environment
        self.places = simpy.PriorityResource(environment, places)
        self.name, self.room, self.service, self.by_class = name, room, service, by_class
        self.done = self.lost = self.busy_time = 0
        self.place_time = places * HORIZON
        self.waits = []

    def change(self, parameter, values):
        """Changes the times of service, the chairs, or the places. SimPy has no call for the places."""
        if parameter == "service":
            self.service = values
        elif parameter == "room":
            self.room = values[0]
        else:
            self.place_time += (values[0] - self.places.capacity) * (HORIZON - self.environment.now)
            self.places._capacity = values[0]  # pylint: disable=protected-access
            self.places._trigger_put(None)  # pylint: disable=protected-access

    def is_full(self):
        """Returns whether a newcomer finds neither a free place nor a chair."""
        return self.places.count >= self.places.capacity and len(self.places.queue) >= self.room

    def began(self, wait, duration):
        """Counts a service that begins now; of its time only what is before the horizon."""
        self.waits.append(wait)
        self.busy_time += min(duration, HORIZON - self.environment.now)

    def counts(self):
        """Returns the counts as a trace of `cloner` shows them."""
        return f"busy={self.places.count} wait={len(self.places.queue)} done={self.done} lost={self.lost}"


class Sink:
    """The station at which patients leave, with their times in the department by class."""

    def __init__(self, name):
        self.name, self.stays = name, {1: [], 2: []}
        self.got = self.stay = 0

    def take(self, urgency, stay):
        """Counts a patient who leaves."""
        self.stays[urgency].append(stay)
        self.got += 1
        self.stay += stay

    def counts(self):
        """Returns the counts as a trace of `cloner` shows them."""
        return f"got={self.got} stay={self.stay}"


def stations(environment):
    """Returns the stations of the department, by name."""
    made = [
        Source("inpatients", 1, (12, 36), 4),
        Source("outpatients", 2, (5, 15), 2),
        Server("registration", environment, 1, 20, (3, 8)),
        Router("split", [("new_scanner", 3), ("old_scanner", 3)], [3, 2]),
        Server("new_scanner", environment, 1, 8, (5, 13), by_class=True),
        Server("old_scanner", environment, 1, 8, (8, 20), by_class=True),
        Router("check", [("exit", 2), ("beds", 3), ("split", 2)], [6, 3, 1]),
        Server("beds", environment, 3, 6, (30, 60)),
        Sink("exit"),
    ]
    return {station.name: station for station in made}


class Department:
    """One run of the department. A decision is (time, station, parameter, values)."""

    def __init__(self, words, decisions=(), trace=False, own_order=False):
        self.environment = simpy.Environment()
        self.words, self.own_order = words, own_order
        self.sent = dict.fromkeys(SENDER, 0)
        self.stations = stations(self.environment)
        self.servers = [station for station in self.stations.values() if isinstance(station, Server)]
        self.exit = self.stations["exit"]
        self.lines = [] if trace else None
        for decision in decisions:
            self.environment.process(self.decided(Message(self, "analyst", decision[0]), decision))
        self.environment.process(self.arrivals(self.stations["inpatients"]))
        self.environment.process(self.arrivals(self.stations["outpatients"]))

    def handled(self, message, station, event):
        """Adds the line of a message to the trace."""
        if self.lines is not None:
            self.lines.append(
                f"{self.environment.now} {station.name} {message.sender} {message.number} {event} {station.counts()}\n"
            )

    def decided(self, message, decision):
        """Carries out one decision when its message comes."""
        _, name, parameter, values = decision
        station = self.stations[name]
        yield message
        station.change(parameter, values)
        self.handled(message, station, " ".join(["set", parameter, *map(str, values)]))

    def arrivals(self, source):
        """Makes the patients of one source."""
        while True:
            tick = Message(self, source.name, self.words.between(source.name, source.every))
            yield tick
            patient = Patient(source, self.environment.now)
            source.count += 1
            self.environment.process(self.visit(patient, Message(self, source.name, source.way)))
            self.handled(tick, source, "tick")

    def visit(self, patient, message):
        """Takes a patient through the department, from the message that brings the patient to the registration on."""
        if not (yield from self.served("registration", patient, message)):
            return
        place, message = "split", Message(self, "registration", 2)
        while place == "split":
            scanner, message = yield from self.routed("split", patient, message)
            if not (yield from self.served(scanner, patient, message)):
                return
            place, message = yield from self.routed("check", patient, Message(self, scanner, 2))
        if place == "beds":
            if not (yield from self.served("beds", patient, message)):
                return
            message = Message(self, "beds", 2)
        yield message
        self.exit.take(patient.urgency, self.environment.now - patient.born)
        self.handled(message, self.exit, f"job {patient.name}")

    def served(self, name, patient, arrival):
        """Serves a patient when the message comes. Returns False if the patient is lost."""
        server = self.stations[name]
        yield arrival
        if server.is_full():
            server.lost += 1
            self.handled(arrival, server, f"job {patient.name}")
            return False
        came = self.environment.now
        turn = server.places.request(priority=patient.urgency if server.by_class else 0)
        self.handled(arrival, server, f"job {patient.name}")
        yield turn
        duration = self.words.between(name, server.service)
        server.began(self.environment.now - came, duration)
        end = Message(self, name, duration)
        yield end
        yield server.places.release(turn)
        server.done += 1
        self.handled(end, server, f"done {patient.name}")
        return True

    def routed(self, name, patient, arrival):
        """Sends a patient on. Returns the next station, and the message that brings the patient there."""
        router = self.stations[name]
        yield arrival
        place, way = router.links[self.words.pick(name, router.weights)]
        router.passed += 1
        self.handled(arrival, router, f"job {patient.name}")
        return place, Message(self, name, way)


def mean(values):
    """Returns the mean of a list, 0 of an empty one."""
    return sum(values) / len(values) if values else 0.0


def run(words, decisions=(), trace=False, own_order=False):
    """Returns a department after a run of two weeks."""
    department = Department(words, decisions, trace, own_order)
    department.environment.run(until=HORIZON)
    return department


def figures(department):
    """Returns the figures of a run, by their names."""
    found = {
        "patients through": department.exit.got,
        "mean stay, inpatients": mean(department.exit.stays[1]),
        "mean stay, outpatients": mean(department.exit.stays[2]),
    }
    for server in department.servers:
        found[f"mean wait, {server.name}"] = mean(server.waits)
    for server in department.servers:
        found[f"lost, {server.name}"] = server.lost
    for server in department.servers:
        found[f"utilisation, {server.name}"] = 100 * server.busy_time / server.place_time
    return found


def main():
    """Runs the department once and prints its figures."""
    parser = argparse.ArgumentParser(description="The imaging department of examples/ as a SimPy model.")
    parser.add_argument("--seed", type=int, default=31)
    parser.add_argument("--words", choices=["cloner", "python"], default="python", help="whose random numbers")
    parser.add_argument("--trace", metavar="FILE", help="also write the trace, in the form of cloner's")
    chosen = parser.parse_args()
    words = ClonerWords(chosen.seed) if chosen.words == "cloner" else PythonWords(chosen.seed)
    department = run(words, trace=chosen.trace is not None)
    if chosen.trace:
        with open(chosen.trace, "w", encoding="ascii") as file:
            file.writelines(["clone base\n"] + department.lines)
    for name, value in figures(department).items():
        print(f"{name:28} {value:10.2f}")


if __name__ == "__main__":
    main()
