"""Runs a task for each seed, several at a time: by processes of this machine, or by any executor."""
import contextlib
import importlib
import os
import signal
import threading
from collections import deque
from concurrent.futures import Executor, Future, ProcessPoolExecutor
from concurrent.futures.process import BrokenProcessPool
from multiprocessing import connection, parent_process
from multiprocessing.process import BaseProcess
from types import FrameType
from typing import Any, Callable, Deque, Iterator, List, NoReturn, Optional, Sequence, Tuple, TypeVar

from .errors import PlanningError
from .seed_runs import running

PATIENCE = 2.0  # seconds
MAX_WAITING = 1000
MAX_JOBS = 256
Item = TypeVar("Item")
Found = TypeVar("Found")
Task = Callable[[Any, Item], Found]


def default_jobs() -> int:
    """Returns how many runs this machine does at a time."""
    return min(os.cpu_count() or 1, MAX_JOBS)


def end_now(number: int = 0, frame: Optional[FrameType] = None) -> NoReturn:
    """Ends a process of the pool at once, and the program that it runs.

    It takes no lock, since it may come while the process waits for that program.
    """
    for process in running:
        with contextlib.suppress(OSError):
            if process.returncode is None:
                os.kill(process.pid, signal.SIGKILL)
                os.waitpid(process.pid, 0)
    os._exit(1)


def end_with_parent() -> None:
    """Makes a process of the pool end quietly when it is interrupted, or when the process that started it is gone."""
    def wait_for_end() -> None:
        parent = parent_process()
        if parent:
            connection.wait([parent.sentinel])
            end_now()

    signal.signal(signal.SIGTERM, end_now)
    if signal.getsignal(signal.SIGINT) is signal.default_int_handler:
        signal.signal(signal.SIGINT, end_now)
    threading.Thread(target=wait_for_end, daemon=True).start()


def stop(pool: ProcessPoolExecutor) -> None:
    """Ends all processes of a pool, without waiting for their runs."""
    processes: List[BaseProcess] = list((getattr(pool, "_processes", None) or {}).values())
    for process in processes:
        process.terminate()
    for process in processes:
        process.join(PATIENCE)
        process.kill()
    pool.shutdown()


def in_order(executor: Executor, task: Task[Item, Found], plan: Any, items: Sequence[Item],
             waiting: int) -> Iterator[Tuple[Item, Found]]:
    """Yields each item with what the task makes of it, in order; at most `waiting` are begun beyond the next one.

    After an error it cancels the others, but those of a pool of processes: this pool is ended as a whole.
    """
    runs: Deque[Tuple[Item, "Future[Found]"]] = deque()
    try:
        for item in items:
            runs.append((item, executor.submit(task, plan, item)))
            if len(runs) > waiting:
                done, run = runs.popleft()
                yield done, run.result()
        while runs:
            done, run = runs.popleft()
            yield done, run.result()
    finally:
        if not isinstance(executor, ProcessPoolExecutor):
            for _, run in runs:
                run.cancel()


def run_all(task: Task[Item, Found], plan: Any, items: Sequence[Item], jobs: int,
            executor: Optional[Executor] = None) -> Iterator[Tuple[Item, Found]]:
    """Yields each item with what the task makes of it, in order.

    Without an executor, `jobs` processes of this machine do it.
    """
    if executor is not None:
        yield from in_order(executor, task, plan, items, MAX_WAITING)
        return
    with ProcessPoolExecutor(max_workers=max(1, min(jobs, len(items))), initializer=end_with_parent) as pool:
        try:
            yield from in_order(pool, task, plan, items, 2 * jobs)
        except BrokenProcessPool:
            raise PlanningError("a process that read a run was killed, perhaps because memory ran out") from None
        except BaseException:
            stop(pool)
            raise


@contextlib.contextmanager
def executor_of(word: Optional[str]) -> Iterator[Optional[Executor]]:
    """Yields the executor that a word of the command line names, `dask:ADDRESS` or `mpi`; None without a word."""
    if word is None:
        yield None
        return
    kind, _, address = word.partition(":")
    if not (kind == "dask" and address or word == "mpi"):
        raise PlanningError(f"--executor {word}: it is dask:ADDRESS, or mpi")
    with contextlib.ExitStack() as stack:
        try:
            found = dask_executor(stack, address) if address else mpi_executor(stack)
        except ImportError as fault:
            raise PlanningError(f"--executor {word} needs the Python module {fault.name}, "
                                "which is not installed") from None
        except (OSError, ValueError) as fault:
            raise PlanningError(f"--executor {word}: there is no scheduler: {fault}") from None
        yield found


def dask_executor(stack: contextlib.ExitStack, address: str) -> Executor:
    """Returns the executor of a Dask scheduler, which the stack closes."""
    client: Any = stack.enter_context(importlib.import_module("distributed").Client(address, timeout="10s"))
    found: Executor = client.get_executor()
    return found


def mpi_executor(stack: contextlib.ExitStack) -> Executor:
    """Returns the executor of the processes that MPI has started, which the stack closes."""
    pool: Executor = importlib.import_module("mpi4py.futures").MPIPoolExecutor()
    return stack.enter_context(pool)
