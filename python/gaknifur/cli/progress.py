"""Show the progress of a command on a terminal, if it takes longer than a second."""
import sys
import time
from typing import TYPE_CHECKING

if TYPE_CHECKING:
    from rich.progress import Progress


class Terminal:
    """A bar on standard error, which is removed at the end. Shows nothing if standard error isn't a terminal."""

    def __init__(self) -> None:
        self.start = self.last = time.monotonic()
        self.bar: Progress | None = None

    def __call__(self, what: str, done: int, whole: int) -> None:
        """Shows how much is done, at most ten times a second."""
        now = time.monotonic()
        if now - self.start < 1 or now - self.last < 0.1 or not sys.stderr.isatty():
            return
        self.last = now
        if self.bar is None:
            from rich.console import Console
            from rich.progress import Progress
            # (no thread refreshes the bar: campaigns fork)
            self.bar = Progress(console=Console(stderr=True), transient=True, auto_refresh=False)
            self.bar.add_task(what)
            self.bar.start()
        self.bar.update(self.bar.task_ids[0], description=what, completed=done, total=whole or None, refresh=True)

    def end(self) -> None:
        """Removes the bar."""
        if self.bar is not None:
            self.bar.stop()
            self.bar = None
