"""The chart of an image: the limit in steps, what each column has, zoom, pan and cursor."""
import random
from pathlib import Path
from typing import Any

from asking import bases, example, image, lab
from braked import driven
from browsing import Browser

AXIS = "const axis = document.getElementById('viewer-axis'); axis.value = arguments[0]; axis.dispatchEvent(new Event('change')); window.gaknifur.ask.viewer.drawNow()"
AT = """
const path = document.querySelector('#viewer-chart .limit-line'), speed = document.querySelector('#viewer-chart .speed-line'), found = [];
const at = (line, x) => { const all = []; for (let s = 0; s <= line.getTotalLength(); s += 0.25) { const p = line.getPointAtLength(s);
    if (Math.abs(p.x - x) < 0.4) all.push(p.y); } return all; };
const { from, to } = window.gaknifur.ask.viewer.scene, X = m => 58 + (document.querySelector('#viewer-chart').viewBox.baseVal.width - 68) * (100 * m - from) / (to - from);
for (const m of arguments[0]) { const limit = at(path, X(m)), driven = at(speed, X(m)); found.push([Math.min(...limit), Math.max(...limit), Math.max(...driven)]); }
return found;
"""
GRID = "return [...document.querySelectorAll('#viewer-chart text.axis[text-anchor=end]')].map(one => [one.textContent, +one.getAttribute('y')])"
DOTS = "return ['limit-dots', 'speed-dots'].map(name => (document.querySelector('#viewer-chart .' + name)?.getAttribute('d') ?? '').split('M').length - 1)"
WINDOW = "const { viewer } = window.gaknifur.ask; viewer.drawNow(); return [viewer.scene.from, viewer.scene.to]"
COLUMNS = """
const [from, to, columns] = arguments, scene = {...window.gaknifur.ask.viewer.scene, from, to}, { drawnOf, columnsOf } = window.gaknifur.parts, { axis, signals } = scene;
const drawn = drawnOf(scene, signals.speed, columns, false).flat().map(n => [axis.x[n], signals.speed[n]]), { brake, count } = columnsOf(scene, columns);
return [drawn.filter(([x, speed]) => x >= from && x < to && !Number.isNaN(speed)), [...brake], count];
"""
POINTER = """
const chart = document.getElementById('viewer-chart'), box = chart.getBoundingClientRect();
for (const [type, id, part] of arguments[0]) chart.dispatchEvent(new PointerEvent(type, {pointerId: id, clientX: box.left + part * box.width, clientY: box.top + 90, bubbles: true}));
"""
WHEEL = """
const chart = document.getElementById('viewer-chart'), box = chart.getBoundingClientRect();
return chart.dispatchEvent(new WheelEvent('wheel', {deltaY: arguments[0], clientX: box.left + arguments[1] * box.width, clientY: box.top + 90, bubbles: true, cancelable: true}));
"""
KEY = "document.getElementById('viewer-chart').dispatchEvent(new KeyboardEvent('keydown', {key: arguments[0], bubbles: true, cancelable: true}))"


def steps(browser: Browser, _page: Path, folder: Path) -> int:
    """The example of a trip: from the record at 200 m to that at 300 m the limit is 39.271 km/h, and above the speed."""
    path = folder / "image"
    path.write_bytes(image(folder, [example("trip")], 16))
    count = browser.ask(path)["count"]
    browser.run(AXIS, "place")
    zero, forty = (next(y - 4 for text, y in browser.run(GRID) if text == wanted) for wanted in ("0", "40"))
    wanted = zero - (zero - forty) * 39.271 / 40
    for least, most, speed in browser.run(AT, [205, 238, 250, 295]):
        assert abs(least - wanted) < 0.5 and abs(most - wanted) < 0.5, (least, most, wanted)
        assert most < speed, (most, speed)  # (what is higher has the smaller y)
    assert browser.run(DOTS) == [count, count]
    return 4


def wanted_of(records: list[Any], x: list[float], window: tuple[float, float], columns: int) -> tuple[list[Any], list[int], int]:
    """Of the columns of a window the least and the greatest speed of the records in each, and the worst brake without what holds from before; and how many are in it."""
    speeds: list[Any] = [None] * columns
    brakes, count, speed, life = [0] * columns, 0, None, None
    for record, place in zip(records, x):
        speed = record["speed_m_per_h"] if record["kind"] == "odometer" else speed if record["life"] == life else 0 if record["kind"] == "powerup" else None
        life = record["life"]
        if not window[0] <= place < window[1]:
            continue
        column = int((place - window[0]) * columns / (window[1] - window[0]))
        if column >= columns:
            continue
        if speed is not None:
            low, high = speeds[column] or (speed, speed)
            speeds[column] = [min(low, speed), max(high, speed)]
        brakes[column] = max(brakes[column], ("none", "service", "emergency").index(record["brake"]))
        count += 1
    return speeds, brakes, count


def columns_hold(browser: Browser, _page: Path, folder: Path) -> int:
    """Of random windows: of each column the least and the greatest speed of its records are drawn, and its worst brake; and its events are counted."""
    dice, count = random.Random(9), 0
    restless = driven(tuple((250 * n, dice.randrange(300), dice.randrange(38_000)) for n in range(600)), None)
    for number, data in enumerate([*bases(folder, dice), image(folder, [restless, restless], 400)]):
        path = folder / f"image{number}"
        path.write_bytes(data)
        browser.ask(path)
        records = [line for line in lab("events", str(path))[1] if "event" in line]
        for axis in ("moment", "place"):
            browser.run(AXIS, axis)
            x, spans = browser.run("const { axis } = window.gaknifur.ask.viewer.scene; return [[...axis.x], axis.spans.map(one => [one.life.from, one.life.end, one.low, one.high])]")
            values = [record["time_ms" if axis == "moment" else "place_cm"] for record in records]
            assert [span[0] for span in spans] == [n for n, one in enumerate(records) if not n or one["life"] != records[n - 1]["life"]], spans
            for first, end, low, _ in spans:  # (each life keeps its distances, and none covers another)
                assert all(abs(place - low - value + min(values[first:end])) < 1e-3 for place, value in zip(x[first:end], values[first:end])), (number, axis)
            assert all(one[3] < other[2] for one, other in zip(spans, spans[1:])), spans
            for _ in range(4):
                window = sorted(dice.uniform(min(x) - 10, max(x) + 10) for _ in range(2))
                columns = dice.choice((1, 7, 100))
                drawn, brake, seen = browser.run(COLUMNS, *window, columns)
                speeds, brakes, wanted = wanted_of(records, x, (window[0], window[1]), columns)
                found: list[Any] = [None] * columns
                for place, speed in drawn:
                    column = int((place - window[0]) * columns / (window[1] - window[0]))
                    if column < columns:
                        low, high = found[column] or (speed, speed)
                        found[column] = [min(low, speed), max(high, speed)]
                assert (found, seen) == (speeds, wanted), (number, axis, window, columns, found, speeds)
                assert all(one >= other for one, other in zip(brake, brakes)), (number, axis, window, brake, brakes)
                count += columns
    return count


def moves(browser: Browser, _page: Path, folder: Path) -> int:
    """Zoom and pan by wheel, drag, two fingers and keys; a click chooses the nearest event; the cursor shows all signals; the window follows it."""
    path = folder / "image"
    path.write_bytes(image(folder, [example("power_cut"), example("power_cut", "restart.json"), example("trip")], 16))
    browser.ask(path)
    browser.run(AXIS, "place")
    all_, labels = browser.run(WINDOW), browser.run("return [...document.querySelectorAll('#viewer-chart text')].map(one => one.textContent).filter(one => one.startsWith('life '))")
    assert labels[0] == "life 1" and labels[-1] == "life 3", labels
    assert browser.run(WHEEL, 100, 0.5) and browser.run(WINDOW) == all_, "a wheel that can't zoom out further scrolls the page"
    assert not browser.run(WHEEL, -120, 0.5)
    near = browser.run(WINDOW)
    share = 0.5 + (0.5 * (58 + 10) - 58) / (browser.run("return document.getElementById('viewer-chart').viewBox.baseVal.width") - 68)  # (the chart's middle, by its margins)
    assert abs((near[1] - near[0]) * 1.25 ** 2 / (all_[1] - all_[0]) - 1) < 1e-6, (near, all_)
    assert abs(near[0] + share * (near[1] - near[0]) - all_[0] - share * (all_[1] - all_[0])) < 1e-3 * (all_[1] - all_[0]), (near, all_, share)
    browser.run(POINTER, [["pointerdown", 1, 0.6], ["pointermove", 1, 0.5], ["pointerup", 1, 0.5]])
    dragged = browser.run(WINDOW)
    assert abs((dragged[0] - near[0]) / (near[1] - near[0]) - 0.1) < 0.01, (near, dragged)
    browser.run(POINTER, [["pointerdown", 1, 0.4], ["pointerdown", 2, 0.6], ["pointermove", 2, 0.8], ["pointerup", 1, 0.4], ["pointerup", 2, 0.8]])
    pinched = browser.run(WINDOW)
    assert abs((pinched[1] - pinched[0]) / (dragged[1] - dragged[0]) - 0.5) < 0.01, (dragged, pinched)
    for key, times_ in (("+", 0.8), ("-", 1.25)):
        before = browser.run(WINDOW)
        browser.run(KEY, key)
        after = browser.run(WINDOW)
        assert abs((after[1] - after[0]) / (before[1] - before[0]) - times_) < 1e-6, (key, before, after)
    browser.run(KEY, "ArrowRight")
    after = browser.run(WINDOW)
    assert after[0] > pinched[0]
    browser.run(KEY, "0")
    assert browser.run(WINDOW) == all_
    index = browser.run("return window.gaknifur.ask.records.find(24)")
    part = browser.run("const { viewer } = window.gaknifur.ask, { width } = viewer.root.viewBox.baseVal; return (58 + (width - 68) * (viewer.scene.axis.x[arguments[0]] - viewer.scene.from) / (viewer.scene.to - viewer.scene.from)) / width", index)
    browser.run(POINTER, [["pointerdown", 1, part], ["pointerup", 1, part]])
    assert browser.run("const { ask } = window.gaknifur; return ask.viewer.scene.axis.x[ask.index] === ask.viewer.scene.axis.x[arguments[0]]", index)
    browser.run("window.gaknifur.ask.chooseEvent(24)")
    said = browser.text("viewer-at")
    assert said == ("At the cursor: speed 15.0 km/h; limit, which is the permitted speed, 0.0 km/h; emergency brake; Full Supervision; level 1; front 300.00 m;"
                    " moment 0 s."), said
    browser.run("const { viewer } = window.gaknifur.ask; viewer.zoom(0.05, viewer.scene.axis.low)")
    browser.run("window.gaknifur.ask.choose(window.gaknifur.ask.records.count - 1)")
    window, x = browser.run(WINDOW), browser.run("const { ask } = window.gaknifur; return ask.viewer.scene.axis.x[ask.index]")
    assert window[0] <= x <= window[1], (window, x)
    return 14


CHECKS = {"steps": (steps, 4), "columns": (columns_hold, 500), "moves": (moves, 14)}
