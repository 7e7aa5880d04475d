"""Replays the line of one server of one branch from its lines in a trace: which job begins service when.

The counts after each message show it:

- At a `job` line, the job is lost if `lost` rose. It begins at once if `busy` rose. Else it joins the line at its end.
- After a `done` or a `set`, as many jobs begin at that time as `wait` fell by: the next in line.
- Next is the job that has waited longest. At a server with order `class`, it is the first of the least class in line.
"""
from collections import deque
from typing import Deque, List, Optional, Sequence, Set, Tuple

from .traces import class_of

CLASSES = 4
# how a `job` line moves the counts busy, wait, done and lost
BEGINS = (1, 0, 0, 0)
JOINS = (0, 1, 0, 0)
IS_LOST = (0, 0, 0, 1)

# a job whose service begins: its name as the trace has it, and the time at which it came to the server
Begun = Tuple[str, int]
NOBODY: Sequence[Begun] = ()


class ServerQueue:
    """The jobs at one server of one branch, and the server's counts after the last message.

    misfit is the first job whose service ended before it had begun by this order of service. It is None as long as the
    order fits.
    """

    def __init__(self, order: str = "arrival"):
        self.busy = 0
        self.wait = 0
        self.done = 0
        self.lost = 0
        self.by_class = order == "class"
        self.misfit: Optional[str] = None
        self._serving: Set[str] = set()
        self._lines: List[Deque[Begun]] = [deque() for _ in range(CLASSES if self.by_class else 1)]

    def handle(self, time: int, what: str, job: str, counts: Tuple[int, ...]) -> Sequence[Begun]:
        """Takes what the server's next message brings, and its counts after it.

        Returns the jobs that begin service at its time, in order. Raises ValueError if the counts do not follow from
        those before: then lines are missing.
        """
        busy, wait, done, lost = counts
        move = (busy - self.busy, wait - self.wait, done - self.done, lost - self.lost)
        self.busy, self.wait, self.done, self.lost = counts
        if what == "job":
            if move == JOINS:
                self._lines[class_of(job) - 1 if self.by_class else 0].append((job, time))
            elif move == BEGINS:
                self._serving.add(job)
                return ((job, time),)
            elif move != IS_LOST:
                raise ValueError(f"the counts do not follow from those before {job} came")
            return NOBODY
        finished = 0
        if what == "done":
            finished = 1
            if job in self._serving:
                self._serving.remove(job)
            elif self.misfit is None:
                self.misfit = job
        begun = -move[1]
        if begun < 0 or move != (begun - finished, -begun, finished, 0):
            raise ValueError(f"the counts do not follow from those before {what} {job}")
        return [self._next() for _ in range(begun)] if begun else NOBODY

    def jobs(self) -> List[Begun]:
        """Returns the jobs in line, the next first, each with the time at which it came."""
        return [job for line in self._lines for job in line]

    def _next(self) -> Begun:
        for line in self._lines:
            if line:
                begun = line.popleft()
                self._serving.add(begun[0])
                return begun
        raise ValueError("a job begins service, but none is in line")
