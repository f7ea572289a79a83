"""Draw what followed a brake command, as SVG for a page: the speed over way and time, with the curve that the train data promise."""
from ..program import Json
from .braking import BROKEN, PROMISES, Measured, promised_curve
from .charts import END, SPEED, STYLE, svg_of
from .matplotlib_defaults import Figure, FigureCanvasSVG, plain

MOST_DRAWN, MOST_DOTS = 6, 80


def is_seen(one: Json) -> bool:
    """Whether there is something to draw."""
    return one["answer"] not in ("standing", "too_few")


def chosen(rows: list[Json]) -> set[int]:
    """The first events of the commands that are drawn: first those that break a promise, then those at the greatest speed."""
    def rank(one: Json) -> tuple[bool, int]:
        return all(one[name] != BROKEN for name in PROMISES), -(one["speed_m_per_h"] or 0)

    return {one["first_event"] for one in sorted(filter(is_seen, rows), key=rank)[:MOST_DRAWN]}


def draw(measured: Measured, title: str) -> str:
    """The SVG of a command."""
    command, points = measured.command, measured.points()
    curve = promised_curve(command.before.speed, command.train) if command.before and command.train else []
    with plain(STYLE):
        figure = Figure(figsize=(11, 2.8))
        FigureCanvasSVG(figure)
        axes = figure.subplots(1, 2, sharey=True, gridspec_kw={"wspace": 0.06, "left": 0.065, "right": 0.985, "top": 0.86, "bottom": 0.18})
        for axis, at, unit, name in ((axes[0], 1, 100, "way since the command, m"), (axes[1], 0, 1000, "time since the command, s")):
            axis.plot([one[at] / unit for one in points], [one[2] / 1000 for one in points], color=SPEED, lw=1.6, marker="o" if len(points) <= MOST_DOTS else None, ms=3,
                      label="readings")
            if curve:
                axis.plot([one[at] / unit for one in curve], [one[2] / 1000 for one in curve], color=END, lw=1.4, ls=(0, (4, 3)), zorder=5,
                          label="promised by the train data")
            axis.set_xlabel(name)
            axis.set_ylim(bottom=0)
            axis.grid(axis="y", color="#e6e6e6", lw=0.6)
        axes[0].set_ylabel("km/h")
        axes[0].set_title(title, loc="left", fontsize=10, fontweight="bold")
        axes[1].legend(loc="upper right", frameon=False, fontsize=8)
        return svg_of(figure, f"k{command.first_event}", title, f"{len(points)} readings; the table above has the figures.")
