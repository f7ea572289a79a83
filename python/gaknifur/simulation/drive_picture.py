"""Draw a drive: speed and limit over the train's place, with the brakes as background, and where the train has to stop."""
import io
from typing import Any

from .. import files
from ..journal.charts import BRAKES, END, HATCHES, INK, SPEED, STYLE
from ..journal.matplotlib_defaults import Figure, FigureCanvasAgg, FigureCanvasSVG, plain
from .driving import Driven

CANVASES = {".svg": ("svg", FigureCanvasSVG), ".png": ("png", FigureCanvasAgg)}
METADATA: dict[str, dict[str, str | None]] = {
    "svg": {"Date": None, "Creator": files.MAKER}, "png": {"Software": files.MAKER}}


def shade(axes: Any, driven: Driven) -> None:
    """Draws the stretches on which a brake was commanded. Each has a hatch too, so that nothing is shown only by colour."""
    rows, named = driven.rows, set()
    for first, last in runs(driven):
        brake = rows[first].brake
        if brake == "none":
            continue
        left, right = (rows[at].place_cm / 100 for at in (first, last))
        axes.axvspan(left, max(right, left + 0.3), facecolor=BRAKES[brake], edgecolor=BRAKES[brake], hatch=HATCHES[brake],
                     alpha=0.25, lw=0, label=None if brake in named else f"{brake} brake")
        named.add(brake)


def runs(driven: Driven) -> list[tuple[int, int]]:
    """The first row, and the row after the last one, of each run of one command."""
    brakes = [row.brake for row in driven.rows]
    starts = [at for at, brake in enumerate(brakes) if not at or brake != brakes[at - 1]]
    return list(zip(starts, [*starts[1:], len(brakes) - 1]))


def mark(axes: Any, place_cm: int, text: str) -> None:
    """Draws a place where the train has to stop."""
    axes.axvline(place_cm / 100, color=END, lw=1, ls=(0, (4, 3)))
    axes.annotate(text, (place_cm / 100, 1), xycoords=("data", "axes fraction"), xytext=(-3, -2), textcoords="offset points",
                  rotation=90, ha="right", va="top", fontsize=8, color=END)


def draw(axes: Any, driven: Driven, ends: tuple[int, int] | None) -> None:
    """Draws lines, brakes and places."""
    places = [row.place_cm / 100 for row in driven.rows]
    axes.step(places, [row.limit_m_per_h / 1000 for row in driven.rows], where="post", color=INK, lw=1, label="limit")
    axes.plot(places, [row.speed_m_per_h / 1000 for row in driven.rows], color=SPEED, lw=1.6, label="speed")
    shade(axes, driven)
    if ends:
        mark(axes, ends[0], "end of authority")
        if ends[1] != ends[0]:
            mark(axes, ends[1], "supervised location")
    axes.set_xlabel("place of the train's front, m")
    axes.set_ylabel("km/h")
    axes.set_ylim(bottom=0)
    axes.legend(frameon=False, loc="upper left", bbox_to_anchor=(1.0, 1.0), fontsize=8)


def drawn(driven: Driven, ends: tuple[int, int] | None, title: str, suffix: str) -> bytes:
    """The picture as a file with this suffix. The same drive always gives the same bytes."""
    form, canvas = CANVASES[suffix]
    with plain(STYLE):
        figure = Figure(figsize=(9, 3.8), layout="constrained")
        canvas(figure)
        axes = figure.subplots()
        draw(axes, driven, ends)
        axes.set_title(title, loc="left", fontsize=10)
        file = io.BytesIO()
        figure.savefig(file, format=form, dpi=110, metadata=METADATA[form])
    return file.getvalue()
