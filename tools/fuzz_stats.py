"""What docs/FORMATS_OUTPUT.md says of what `stats` writes, worked out once more from the traces, for fuzz.py.

It keeps each visit, and adds up times in the system and waits visit by visit: by Little's law and Lindley's equation
these sums are the figures of `cloner`, which walks along a log and keeps no visit.
"""
import re

COUNTS = re.compile(r"busy=(\d+) wait=(\d+) done=(\d+) lost=(\d+)\Z")


class Visit:
    """A visit of a job: its arrival, and its end if it has ended."""

    def __init__(self, job, arrival):
        self.job, self.arrival, self.end = job, arrival, None


class Queue:
    """The history of a server in a clone, from the lines of its log."""

    def __init__(self, lines):
        self.arrived, self.lost, self.done, self.most, self.changes = 0, 0, 0, 0, 0
        self.visits = []
        for line in lines:
            self.take(line)

    def take(self, line):
        """Takes a line in."""
        words, counts = line.split(" "), COUNTS.search(line)
        time, kind = int(words[0]), words[4]
        if kind == "job":
            self.arrive(words[5], time, int(counts[4]))
        elif kind == "done":
            next(visit for visit in self.visits if visit.job == words[5] and visit.end is None).end = time
            self.done += 1
        elif kind == "set":
            self.changes += 1
        self.most = max(self.most, int(counts[2]))

    def arrive(self, job, time, lost):
        """An arrival: a loss if the count of losses rises, else a visit."""
        self.arrived += 1
        if lost > self.lost:
            self.lost = lost
        else:
            self.visits.append(Visit(job, time))

    def present(self, until):
        """The times in the system, summed over all visits."""
        return sum((until if visit.end is None else visit.end) - visit.arrival for visit in self.visits)

    def waits(self):
        """The waits of the visits that have started, at one server by arrival: a service starts as the last one ends."""
        starts = [None if not before else before.end for before in [None, *self.visits[:-1]]]
        waits = [0] if self.visits else []
        for visit, end in list(zip(self.visits, starts))[1:]:
            if end is not None:
                waits.append(max(end - visit.arrival, 0))
        return waits

    def line(self, single, until):
        """The figures as `stats` writes them."""
        said = f"arrived={self.arrived} lost={self.lost} done={self.done} most={self.most} present={self.present(until)}"
        if not single or self.changes or self.lost:
            return f"{said} waited=- longest=-"
        waits = self.waits()
        return f"{said} waited={sum(waits)} longest={max(waits, default=0)}"


def expected_stats(traces, model, ends, log_entries):
    """The text of the statistics of these traces: a line for each clone and server."""
    names, lines = [station.name for station in model.stations], ["stats"]
    for clone, trace in traces.items():
        logs, until = log_entries(trace, names), min(model.top["horizon"], ends.get(clone, model.top["horizon"]))
        for station in model.stations:
            if station.kind == "server":
                queue = Queue([line for line, _ in logs[station.name]])
                single = station.keys["servers"] == 1 and station.keys.get("order") != "class"
                lines.append(f"{clone} {station.name} {queue.line(single, until)}")
    return "".join(f"{line}\n" for line in lines).encode()
