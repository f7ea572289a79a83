"""Share work among processes of this machine."""
import contextlib
import multiprocessing
import signal
from collections.abc import Iterator
from concurrent.futures import ProcessPoolExecutor
from concurrent.futures.process import BrokenProcessPool
from typing import Any

from .program import DEVICE, Failed

shared: Any = None
"""In a process of a pool: what the pool shares. It isn't sent, so it may hold functions."""


def begin(what: Any) -> None:
    """Begins a process. An interrupt from the terminal reaches only the first process, which then ends the others."""
    global shared
    shared = what
    signal.signal(signal.SIGINT, signal.SIG_IGN)
    signal.signal(signal.SIGTERM, signal.SIG_DFL)


@contextlib.contextmanager
def pool(jobs: int, what: Any = None) -> Iterator[ProcessPoolExecutor]:
    """So many processes, which share something. One that is killed ends all."""
    with ProcessPoolExecutor(jobs, multiprocessing.get_context("fork"), begin, (what,)) as executor:
        try:
            yield executor
        except BrokenProcessPool as error:
            raise killed() from error
        finally:
            executor.shutdown(wait=False, cancel_futures=True)


def killed() -> Failed:
    """The failure of a process that ended early."""
    return Failed("a process was killed, or ran out of memory", DEVICE)
