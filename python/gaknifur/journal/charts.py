"""Draw a life, or a part of one, as SVG for a page: speed and limit over distance, time or events.

The brake commands are drawn as a background of speed and limit; below them are a strip of brakes and one of modes, with letters, so
that nothing is shown only by colour. The colours are those of Okabe and Ito, which colour-blind people can distinguish; for dark
screens `templates/report.css` replaces them, so a colour that is added here has to be added there. Marks of single events are
anchors `pN` that link to the row `rN` of the page. The same table always gives the same bytes.
"""
import html
import io
import re
from collections.abc import Iterator, Sequence
from dataclasses import dataclass, field
from typing import Any

import numpy as np
import pandas as pd

from .matplotlib_defaults import Figure, FigureCanvasSVG, plain

STYLE = {"svg.fonttype": "none", "svg.hashsalt": "gaknifur", "font.family": "sans-serif", "font.size": 9,
         "axes.spines.top": False, "axes.spines.right": False, "path.simplify": True, "path.simplify_threshold": 0.3,
         "hatch.linewidth": 0.6, "text.parse_math": False, "axes.titley": 1.0}
INK, SPEED, ABOVE, END, QUIET = "#222222", "#0072B2", "#D55E00", "#882255", "#5b6875"
BRAKES = {"none": "#ffffff", "service": "#E69F00", "emergency": "#D55E00"}
HATCHES = {"service": "///", "emergency": "xxx"}
LETTERS = {"service": "S", "emergency": "E"}
MODES = {"FS": "#b5dccb", "OS": "#f5eeb0", "SR": "#bcdcf2", "SH": "#e6c8d9", "UN": "#dddddd", "SB": "#efefef",
         "TR": "#f0b79a", "PT": "#f7dcc2", "SF": "#a9a9a9"}
MANY = "many"
SEVERITY = {"none": 0, "service": 1, "emergency": 2}
AXES = {"distance": ("place from the power-up of the life, m", "place_cm", 100.0),
        "time": ("moment of the clock in the life, s", "time_ms", 1000.0), "event": ("event", "event", 1.0)}
MOST_DRAWN, MOST_MARKS, MOST_LABELS, COLUMNS = 6000, 120, 14, 400
MOST_POINTS = 150
"""Up to so many records have points of their own on the line; of more, those above the limit are small, so that they don't cover it."""
MOST_SIGNS, BARS = 60, 90
"""Up to MOST_SIGNS telegrams have signs of their own; for more, the picture shows their number in each of BARS parts of the way."""

MARK = re.compile(r'(<g id="(?:p|\w+-to)(\d+)">\s*<g[^>]*>\s*<use [^>]*/>\s*</g>\s*</g>)')
"""A circle, by its id. Lines of matplotlib have no links of their own."""


@dataclass
class Picture:
    """What a picture shows besides its table. Rows are those of the table's index."""

    axis: str
    title: str
    prefix: str
    """The prefix of the ids of this picture, which are unique on a page."""
    marks: Sequence[int] = ()
    """Rows with a circle that links to the page's row of the event."""
    has_anchors: bool = True
    """Whether the circles are anchors: only one picture of a page has the anchor of an event."""
    groups: Sequence[tuple[int, str]] = ()
    """Places of balise groups in cm, with texts."""
    ends: Sequence[tuple[int, str]] = ()
    """Announced ends of authority in cm, with texts."""
    height: float = 4.2
    is_vast: bool = field(default=False)
    """Whether bands are drawn instead of lines."""


def numbers(table: pd.DataFrame, name: str) -> Any:
    """A column as numbers, NaN for missing values."""
    return table[name].astype("Float64").to_numpy(float, na_value=np.nan)


def along(table: pd.DataFrame, axis: str) -> Any:
    """The position of each record on an axis. A record without a place has the position of the one before it."""
    _, name, unit = AXES[axis]
    return pd.Series(numbers(table, name) / unit).ffill().fillna(0).to_numpy()


def runs(values: Any, x: Any) -> Iterator[tuple[float, float, str]]:
    """Runs of one value: start, end, value. A run ends where the next one begins."""
    starts = np.flatnonzero(np.concatenate([[True], values[1:] != values[:-1]]))
    ends = np.concatenate([starts[1:], [len(values) - 1]])
    for first, last in zip(starts, ends):
        yield float(x[first]), float(x[last]), str(values[first])


def binned(values: Any, x: Any, pick: Any) -> Iterator[tuple[float, float, str]]:
    """The same for many runs: one value for each column of the picture, which `pick` chooses from the values there."""
    edges = np.linspace(x.min(), x.max(), COLUMNS + 1)
    column = np.clip(np.searchsorted(edges, x, side="right") - 1, 0, COLUMNS - 1)
    found: list[set[str]] = [set() for _ in range(COLUMNS)]
    for at, value in zip(column, values):
        found[at].add(str(value))
    picked, before = np.empty(COLUMNS, object), str(values[0])
    for at, one in enumerate(found):
        picked[at] = pick(one) if one else before
        before = picked[at]
    # The last value ends at the last edge.
    return runs(np.concatenate([picked, picked[-1:]]), edges)


def worst(brakes: set[str]) -> str:
    """The most severe of some commands."""
    return max(brakes, key=SEVERITY.__getitem__)


def only(modes: set[str]) -> str:
    """The mode, if there is only one."""
    return next(iter(modes)) if len(modes) == 1 else MANY


def spans(table: pd.DataFrame, x: Any, name: str) -> list[tuple[float, float, str]]:
    """The runs of a column that a picture draws."""
    values = table[name].to_numpy(object)
    found = list(runs(values, x))
    if len(found) <= COLUMNS:
        return found
    return list(binned(values, x, worst if name == "brake" else only))


def draw_strips(brakes: Any, modes: Any, main: Any, table: pd.DataFrame, x: Any, width: float, is_vast: bool) -> None:
    """Draws the two strips, and the background of brakes."""
    for first, last, brake in spans(table, x, "brake"):
        if brake == "none":
            continue
        if not is_vast:
            main.axvspan(first, max(last, first + width / 800), color=BRAKES[brake], alpha=0.18, lw=0)
        brakes.broken_barh([(first, max(last - first, width / 400))], (0, 1), facecolor=BRAKES[brake], lw=0)
        if last - first > width / 60:
            brakes.text((first + last) / 2, 0.45, LETTERS[brake], ha="center", va="center", fontsize=8, color="#ffffff"
                        if brake == "emergency" else INK, fontweight="bold")
    labels = 0
    for first, last, mode in spans(table, x, "mode"):
        modes.broken_barh([(first, max(last - first, width / 800))], (0, 1), lw=0,
                          facecolor=MODES.get(mode, "#ffffff"), hatch="..." if mode == MANY else None, edgecolor="#888888")
        if last - first > width / 40 and labels < 3 * MOST_LABELS and mode != MANY:
            modes.text((first + last) / 2, 0.45, mode, ha="center", va="center", fontsize=8)
            labels += 1
    for strip, word in ((brakes, "brake"), (modes, "mode")):
        strip.set_yticks([])
        strip.set_ylim(0, 1)
        strip.set_ylabel(word, rotation=0, ha="right", va="center", fontsize=8)
        strip.spines["left"].set_visible(False)


def draw_lines(main: Any, x: Any, speed: Any, limit: Any, axis: str) -> None:
    """Draws speed and limit, which hold from their event until the next one. Over distance and time the speed is drawn as a slope
    between two readings, like the train's own speed."""
    main.plot(x, limit, drawstyle="steps-post", color=INK, lw=1.1, label="limit")
    has_room = len(x) <= MOST_POINTS
    main.plot(x, speed, drawstyle="steps-post" if axis == "event" else "default", color=SPEED, lw=1.6, label="speed",
              marker="." if has_room else None, ms=4)
    above = np.where(speed > limit, speed, np.nan)
    if not np.isnan(above).all():
        main.plot(x, above, "D" if has_room else ".", color=ABOVE, ms=3.2 if has_room else 2.2, label="above the limit", ls="none", zorder=6)


def extreme(pick: Any, values: Any) -> float:
    """The least or the greatest of some values; NaN if all are missing."""
    return float(pick(values)) if not np.isnan(values).all() else float("nan")


def draw_bands(main: Any, x: Any, speed: Any, limit: Any) -> None:
    """Draws bands if there are too many readings for lines: for each part the least to the greatest speed, the least limit and the
    greatest overspeed."""
    parts = [part for part in np.array_split(np.arange(len(x)), COLUMNS) if len(part)]
    middle = np.array([x[part].mean() for part in parts])
    least, most = (np.array([extreme(pick, speed[part]) for part in parts]) for pick in (np.nanmin, np.nanmax))
    allowed = np.array([extreme(np.nanmin, limit[part]) for part in parts])
    over = np.array([extreme(np.nanmax, speed[part] - limit[part]) for part in parts])
    main.fill_between(middle, least, most, color=SPEED, alpha=0.3, lw=0, label="speed, least to greatest")
    main.plot(middle, most, color=SPEED, lw=0.8)
    main.plot(middle, allowed, color=INK, lw=0.8, ls=":", label="least limit")
    main.plot(middle, np.maximum(over, 0), color=ABOVE, lw=1.0, label="most above the limit")


def length_text(metres: float) -> str:
    """A length in whole metres, or with three digits if it is short."""
    return f"{metres:,.0f}" if metres >= 100 else f"{metres:.3g}"


def draw_many(main: Any, places: list[float], left: float, right: float, top: float) -> None:
    """Draws the number of telegrams in each part of the way, if their signs would cover one another."""
    count, edges = np.histogram(places, BARS, (left, right))
    part = float(edges[1] - edges[0])
    main.bar(edges[:-1] + part / 2, count / count.max() * top * 0.06, part * 0.6, color=QUIET, lw=0,
             label=f"telegrams read,\nup to {count.max()} in {length_text(part)} m")


def draw_track(main: Any, picture: Picture, left: float, right: float, top: float) -> float:
    """Draws balise groups and announced ends; returns the right end of the picture."""
    groups = [(place / 100, text) for place, text in picture.groups if left <= place / 100 <= right]
    if len(groups) > MOST_SIGNS:
        draw_many(main, [place for place, _ in groups], left, right, top)
    elif groups:
        main.plot([place for place, _ in groups], [0] * len(groups), "^", color=INK, ms=5, clip_on=False, ls="none",
                  label="telegram read")
    for place, text in groups if len(groups) <= MOST_LABELS else ():
        main.annotate(text, (place, 0), xytext=(0, 7), textcoords="offset points", ha="center", fontsize=7)
    width = right - left
    near = [(place / 100, text) for place, text in picture.ends
            if left - width * 0.02 <= place / 100 <= right + width * 0.2]
    for place, text in near if len(near) <= MOST_LABELS else ():
        main.axvline(place, color=END, lw=1, ls=(0, (4, 3)))
        main.annotate(text, (place, top), xytext=(-3, -2), textcoords="offset points", rotation=90, ha="right",
                      va="top", fontsize=7, color=END)
        right = max(right, place)
    return right


def draw_marks(main: Any, picture: Picture, table: pd.DataFrame, x: Any, speed: Any) -> None:
    """Draws a circle at each mark, and over distance also the interval of the front."""
    at = {row: place for place, row in enumerate(table.index)}
    shown = [(row, at[row]) for row in list(picture.marks)[:MOST_MARKS] if row in at]
    label: str | None = "possible front"
    fronts = np.array([numbers(table, name) / 100 for name in ("min_safe_front_cm", "max_safe_front_cm")])
    for row, place in shown:
        height = 0.0 if np.isnan(speed[place]) else speed[place]
        if picture.axis == "distance" and not np.isnan(fronts[:, place]).any() and len(table) <= MOST_POINTS:
            main.plot(fronts[:, place], [height] * 2, color=SPEED, lw=4, alpha=0.22, solid_capstyle="butt", zorder=4, label=label)
            label = None
        dot, = main.plot([x[place]], [height], "o", mfc="white", mec=SPEED, mew=1, ms=5, zorder=5, clip_on=False)
        dot.set_gid(f"p{row}" if picture.has_anchors else f"to{row}")


def finish(main: Any, last: Any, picture: Picture, table: pd.DataFrame, reach: tuple[float, float]) -> None:
    """Adds title, legend and axes."""
    left, right = reach
    width = max(right - left, 1e-9)
    main.set_ylabel("km/h")
    main.grid(axis="y", color="#e6e6e6", lw=0.6)
    main.set_title(picture.title, loc="left", fontsize=10, fontweight="bold", pad=16 if picture.axis == "event" else 6)
    main.legend(loc="upper left", bbox_to_anchor=(1.0, 1.0), frameon=False, fontsize=8)
    last.set_xlabel(AXES[picture.axis][0])
    main.xaxis.set_major_formatter(lambda value, _: f"{value:,.0f}" if width > 8 else f"{value:,.1f}")
    main.set_xlim(left - width * 0.01, right + width * 0.02)
    if picture.axis == "event":
        for event, place in list(zip(table["event"], numbers(table, "place_cm")))[::max(len(table) // 8, 1)]:
            if not np.isnan(place):
                main.text(event, 1.02, f"{place / 100:,.0f} m", transform=main.get_xaxis_transform(), fontsize=7,
                          color=QUIET, ha="center")


def described(table: pd.DataFrame) -> str:
    """The text alternative of a picture. The table of events has the same content as its circles."""
    brake, speed = table["brake"], table["speed_kmh"].dropna()
    fast = f"; speed at most {float(speed.max()):.1f} km/h" if len(speed) else ""
    return (f"Events {table['event'].iat[0]} to {table['event'].iat[-1]}; modes {', '.join(dict.fromkeys(table['mode']))}{fast}; "
            f"{int((brake == 'service').sum())} of {len(table)} events command the service brake, "
            f"{int((brake == 'emergency').sum())} the emergency brake.")


def svg_of(figure: Figure, prefix: str, title: str, description: str) -> str:
    """The SVG of a figure, with a prefix for all ids but the anchors of events. It is one image with a title and a description: its
    links, which the table of events has too, can't be reached by keyboard."""
    text = io.StringIO()
    figure.savefig(text, format="svg", metadata={"Date": None, "Creator": None})
    svg = text.getvalue()
    svg = re.sub(r'(\bid="|url\(#|xlink:href="#)(?![pr]\d+")', rf"\g<1>{prefix}-", svg[svg.index("<svg"):])
    svg = MARK.sub(r'<a tabindex="-1" xlink:href="#r\2">\1</a>', svg)
    head, _, body = svg.partition(">")
    return (f'{head} role="img" aria-labelledby="{prefix}-title {prefix}-desc">'
            f'<title id="{prefix}-title">{html.escape(title)}</title><desc id="{prefix}-desc">{html.escape(description)}</desc>{body}')


def draw(table: pd.DataFrame, picture: Picture) -> str:
    """The SVG of one life, or of a part of one; the table has at least one record."""
    with plain(STYLE):
        figure = Figure(figsize=(11, picture.height))
        FigureCanvasSVG(figure)
        main, brakes, modes = figure.subplots(3, 1, sharex=True, gridspec_kw={
            "height_ratios": [12, 1, 1], "hspace": 0.05, "left": 0.065, "right": 0.825, "top": 1 - 0.42 / picture.height,
            "bottom": 0.48 / picture.height})
        x = along(table, picture.axis)
        left, right = float(x.min()), float(x.max())
        speed, limit = numbers(table, "speed_kmh"), numbers(table, "limit_kmh")
        draw_strips(brakes, modes, main, table, x, max(right - left, 1e-9), picture.is_vast)
        if picture.is_vast:
            draw_bands(main, x, speed, limit)
        else:
            draw_lines(main, x, speed, limit, picture.axis)
        top = max(float(np.nanmax(np.concatenate([speed, limit, [10.0]]))) * 1.12, 20.0)
        main.set_ylim(0, top)
        if picture.axis == "distance":
            right = draw_track(main, picture, left, right, top)
        if not picture.is_vast:
            draw_marks(main, picture, table, x, speed)
        finish(main, modes, picture, table, (left, right))
        return svg_of(figure, picture.prefix, picture.title, described(table))
