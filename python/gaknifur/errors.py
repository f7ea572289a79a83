"""Report a failure that no command handles: in one line, without a traceback."""
import contextlib
import os
import signal
import sys
import traceback
from collections.abc import Callable

from .escaping import shown

OWN_FAULT, UNWRITTEN, DEVICE = 5, 1, 3
INTERRUPTED, TERMINATED = 128 + signal.SIGINT, 128 + signal.SIGTERM
TRACEBACK = "GAKNIFUR_TRACEBACK"
"""The environment variable that also prints the traceback."""


def say(text: str) -> None:
    """Prints a line on standard error, if it can be written."""
    with contextlib.suppress(OSError):
        print(f"lab: {shown(text)}", file=sys.stderr, flush=True)


def caught(do: Callable[[], int]) -> int:
    """Calls a function and returns its status. Reports in one line whatever it raises. SIGTERM ends it like an interrupt, so that it
    removes what is unfinished."""
    with contextlib.suppress(ValueError):  # (only the main thread may ask for signals)
        signal.signal(signal.SIGTERM, lambda *_: sys.exit(TERMINATED))
    try:
        status = do()
        sys.stdout.flush()
        return status
    except KeyboardInterrupt:
        say("interrupted")
        return INTERRUPTED
    except MemoryError:
        say("out of memory")
        return DEVICE
    except OSError as error:
        try:
            sys.stdout.flush()
        except OSError:  # nothing is written to it any more, also when Python exits
            os.dup2(os.open(os.devnull, os.O_WRONLY), 1)
        if isinstance(error, BrokenPipeError):
            return UNWRITTEN
        say(f"{error.filename}: {error.strerror}" if error.filename else f"{error.strerror or error}")
        return DEVICE
    except Exception as error:
        if os.environ.get(TRACEBACK):
            traceback.print_exc()
        say(f"internal error: {type(error).__name__}: {error}; docs/reference/lab.md says how to report it")
        return OWN_FAULT
