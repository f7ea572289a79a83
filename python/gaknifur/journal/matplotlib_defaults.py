"""Load matplotlib with its own defaults, whatever file `matplotlibrc` the current folder, the environment or the user has.

matplotlib reads such a file while it is imported, from the current folder first. So it is imported in a folder of this
package, and a picture is drawn by its own defaults.
"""
import contextlib
import os
from collections.abc import Iterator, Mapping
from pathlib import Path
from typing import Any


@contextlib.contextmanager
def elsewhere() -> Iterator[None]:
    """Makes the folder of this package the current one inside the block."""
    here = os.open(".", os.O_PATH | os.O_DIRECTORY | os.O_CLOEXEC)
    try:
        os.chdir(Path(__file__).parent)
        yield
    finally:
        os.fchdir(here)
        os.close(here)


with elsewhere():
    import matplotlib
    from matplotlib.backends.backend_agg import FigureCanvasAgg
    from matplotlib.backends.backend_svg import FigureCanvasSVG
    from matplotlib.figure import Figure

__all__ = ["Figure", "FigureCanvasAgg", "FigureCanvasSVG", "plain"]


@contextlib.contextmanager
def plain(style: Mapping[str, Any]) -> Iterator[None]:
    """Draws inside the block with matplotlib's defaults and a style, whatever the user's settings are."""
    with matplotlib.rc_context():
        matplotlib.rcdefaults()
        matplotlib.rcParams.update(style)
        yield
