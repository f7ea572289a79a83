"""Make tables, databases and reports of the journals that the program `etcs_lab` reads.

Every record of the tables comes from `etcs_lab`; `replay` and `why` come from the library of `gaknifur.unit`. The package itself
reads only the gates and numbers of the blocks of an image (`layout`), to copy or compare the blocks as they are.
Call `journal` in a notebook::

    import gaknifur
    events = gaknifur.journal("image")
    events[events["brake"] == "emergency"]

This module, `gaknifur.unit` and `gaknifur.lives` are public. The folders hold what the package itself uses.
"""
from pathlib import Path
from typing import TYPE_CHECKING, Any

if TYPE_CHECKING:
    import pandas as pd

    from .lives import replay, why
    from .playing import play

__all__ = ["brake_causes", "demands", "journal", "play", "replay", "why"]


def __getattr__(name: str) -> Any:
    """Loads `play`, `replay` and `why` when they are first used, so that the commands of ./lab don't wait for them."""
    if name in ("replay", "why"):
        from . import lives
        return getattr(lives, name)
    if name == "play":
        from .playing import play
        return play
    raise AttributeError(f"module {__name__!r} has no attribute {name!r}")


def journal(path: str | Path, other_blocks: bool = False) -> "pd.DataFrame":
    """The records of an image as a table, one row each, the oldest first; `tables` describes its columns.

    With `other_blocks` it also has the records outside the journal; column `source` marks them.
    """
    from .journal import reading, tables  # (pandas takes a while to load, and not every command of ./lab needs it)
    return tables.frame(reading.read(path, other_blocks=other_blocks, replay=True, why=True))


def brake_causes(path: str | Path) -> "pd.DataFrame":
    """A row for each cause of a brake command, the oldest first: the event since which it holds, its meaning and how it ends."""
    import pandas as pd

    from .journal import causes, reading
    return pd.DataFrame(causes.rows(reading.read(path, replay=True, why=True)), columns=causes.ROW)


def demands(path: str | Path) -> "pd.DataFrame":
    """A row for each demand of a guard next to the unit, the oldest first: outside the unit, for telegrams that it skips or refuses and a train of
    issue 2.3.0 acts on. It needs the library of `gaknifur.unit`."""
    import pandas as pd

    from .journal import demands as of_guard, reading
    return pd.DataFrame(of_guard.rows(reading.read(path)), columns=of_guard.ROW).astype({"packet": "Int64"})
