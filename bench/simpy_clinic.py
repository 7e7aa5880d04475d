#!/usr/bin/python3
"""The clinic of examples/ without questions, as a planner writes it for SimPy: one process a patient.

    bench/simpy_clinic.py [--runs N] [--trace]

It needs Debian's python3-simpy3 (or SimPy 3 or 4 from elsewhere). SimPy draws other random numbers and
has its own order of simultaneous events, so its figures are like those of `cloner` on average, and its
bytes are not compared. A message is what `cloner` counts: a tick, an arrival or the end of a service at
a station. It prints one line: messages of all runs, patients who left, lost, mean stay, and the time
and the messages in one second.
"""
import argparse
import random
import time

import simpy

HORIZON = 10000
PATIENTS = 3000


class Desk:
    """A server: its clerks, how many may wait, and how long a service takes."""

    def __init__(self, environment, name, clerks, room, service):
        self.clerks = simpy.Resource(environment, clerks)
        self.name, self.room, self.service = name, room, service
        self.done = self.lost = 0

    def counts(self):
        """The counts as they stand in a trace of `cloner`."""
        return f"busy={self.clerks.count} wait={len(self.clerks.queue)} done={self.done} lost={self.lost}"


class Clinic:
    """One run of the clinic."""

    def __init__(self, seed, trace):
        self.environment = simpy.Environment()
        self.random = random.Random(seed)
        self.reception = Desk(self.environment, "reception", 2, 40, (3, 8))
        self.doctor = Desk(self.environment, "doctor", 3, 60, (10, 25))
        self.xray = Desk(self.environment, "xray", 1, 20, (8, 16))
        self.messages = self.passed = self.left = self.stay = 0
        self.trace = [] if trace else None
        self.environment.process(self.arrivals())

    def handled(self, station, kind, patient, counts):
        """Counts a message, and adds its line to the trace."""
        self.messages += 1
        if self.trace is not None:
            self.trace.append(f"{self.environment.now} {station} {kind} arrivals.{patient} {counts()}\n")

    def arrivals(self):
        """The door, at which patients appear."""
        for patient in range(PATIENTS):
            yield self.environment.timeout(self.random.randint(4, 9))
            self.handled("arrivals", "tick", patient, lambda: f"sent={patient + 1}")
            self.environment.process(self.visit(patient, self.environment.now))

    def served(self, desk, patient):
        """A patient at a desk; the value says whether the patient was served."""
        if desk.clerks.count >= desk.clerks.capacity and len(desk.clerks.queue) >= desk.room:
            desk.lost += 1
            self.handled(desk.name, "job", patient, desk.counts)
            return False
        with desk.clerks.request() as turn:
            self.handled(desk.name, "job", patient, desk.counts)
            yield turn
            yield self.environment.timeout(self.random.randint(*desk.service))
        desk.done += 1
        self.handled(desk.name, "done", patient, desk.counts)
        return True

    def visit(self, patient, born):
        """The way of one patient through the clinic."""
        timeout = self.environment.timeout
        yield timeout(1)
        if not (yield from self.served(self.reception, patient)):
            return
        yield timeout(1)
        self.passed += 1
        self.handled("triage", "job", patient, lambda: f"passed={self.passed}")
        if self.random.randrange(4) < 3:
            yield timeout(2)
        else:
            yield timeout(4)
            if not (yield from self.served(self.xray, patient)):
                return
            yield timeout(3)
        if not (yield from self.served(self.doctor, patient)):
            return
        yield timeout(1)
        self.left += 1
        self.stay += self.environment.now - born
        self.handled("exit", "job", patient, lambda: f"got={self.left} stay={self.stay}")


def arguments():
    """The options of this script."""
    parser = argparse.ArgumentParser(description="The clinic of examples/ as a SimPy model.")
    parser.add_argument("--runs", type=int, default=5, metavar="N", help="how many runs, each with its own seed")
    parser.add_argument("--trace", action="store_true", help="also make the text of a trace")
    return parser.parse_args()


def main():
    """Runs the clinic and prints what came out, and how fast."""
    chosen = arguments()
    begin = time.process_time()
    clinics = [Clinic(2001 + number, chosen.trace) for number in range(chosen.runs)]
    size = 0
    for clinic in clinics:
        clinic.environment.run(until=HORIZON)
        size += len("".join(clinic.trace or []))
    seconds = time.process_time() - begin
    messages, left = sum(c.messages for c in clinics), sum(c.left for c in clinics)
    lost = sum(desk.lost for c in clinics for desk in (c.reception, c.doctor, c.xray))
    stay = sum(c.stay for c in clinics) / max(left, 1)
    print(f"messages={messages} left={left} lost={lost} mean_stay={stay:.1f} bytes={size} "
          f"seconds={seconds:.4f} messages_a_second={messages / seconds:.0f}")


if __name__ == "__main__":
    main()
