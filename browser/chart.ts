// Speed and limit over distance, with a point for each record. A limit holds from its record to the next one, so it is
// drawn in steps. Of many points in a column of pixels only some are drawn.
import {svg} from "./dom";
import {NOTHING_TO_DRAW} from "./texts";

export interface Plot {
    /** In cm; speeds in m/h. */
    x: number[];
    speed: number[];
    limit: number[];
    marks: { index: number; brake: number }[];
    title: string
}
const LEFT = 46, RIGHT = 12, TOP = 22, BOTTOM = 34, HEIGHT = 250, MOST_DOTS = 400, NARROW = 560, CM = 100;

/** Of some records the indexes that are drawn: of each column the first, the last, the least and the greatest value. */
export function thinned(
    from: number, end: number, columnOf: (n: number) => number, valueOf: (n: number) => number): number[] {
    const kept = new Set<number>();
    for (let n = from, first = from; n < end; first = n) {
        const column = columnOf(first);
        let low = first, high = first;
        for (; n < end && columnOf(n) === column; n++) {
            if (Number.isNaN(valueOf(low)) || valueOf(n) < valueOf(low)) low = n;
            if (Number.isNaN(valueOf(high)) || valueOf(n) > valueOf(high)) high = n;
        }
        for (const one of [first, Math.min(low, high), Math.max(low, high), n - 1]) kept.add(one);
    }
    return [...kept];
}

export function bounds(numbers: Iterable<number>): [number, number] {
    let low = Infinity, high = -Infinity;
    for (const number of numbers) {
        if (number < low) low = number;
        if (number > high) high = number;
    }
    return low <= high ? [low, high] : [0, 0];
}

/** Even steps of an axis. */
export function steps(low: number, high: number, about: number): number[] {
    const raw = (high - low) / about || 1, ten = 10 ** Math.floor(Math.log10(raw));
    const step = [1, 2, 5, 10].map(n => n * ten).find(n => n >= raw) ?? raw;
    const found: number[] = [];
    for (let n = Math.ceil(low / step); n * step <= high + step / 1e6; n++) found.push(n * step);
    return found;
}

/** A path through points, in steps where their values hold up to the next one; NaN is a gap. */
export function pathThrough(points: [number, number][], isHeld: boolean): string {
    let path = "", isDown = false;
    for (const [left, top] of points) {
        const x = left.toFixed(1), y = top.toFixed(1);
        if (!Number.isNaN(top)) path += !isDown ? `M${x} ${y}h0` : isHeld ? `H${x}V${y}` : `L${x} ${y}`;
        isDown = !Number.isNaN(top);
    }
    return path;
}

/** A point at each of some. */
export function dotsAt(points: [number, number][]): string {
    return points.filter(([, y]) => !Number.isNaN(y)).map(([x, y]) => `M${x.toFixed(1)} ${y.toFixed(1)}h0`).join("");
}

/** Draws a plot, with the cursor at its last point. */
export function draw(root: Element, { x, speed, limit, marks, title }: Plot): void {
    const isNarrow = root.clientWidth > 0 && root.clientWidth < NARROW, width = isNarrow ? 420 : 760;
    root.setAttribute("viewBox", `0 0 ${width} ${HEIGHT}`);
    const [low, last] = bounds(x), high = Math.max(last, low + CM);
    if (last <= low) {
        root.replaceChildren(svg("text", { x: LEFT, y: HEIGHT / 2, class: "axis" }, NOTHING_TO_DRAW));
        return;
    }
    const most = 1.08 * Math.max(10_000, bounds(speed)[1], bounds(limit)[1]), bottom = HEIGHT - BOTTOM;
    const X = (cm: number): number => LEFT + (width - LEFT - RIGHT) * (cm - low) / (high - low);
    const Y = (v: number): number => bottom - (bottom - TOP) * v / most;
    const text = (x: number, y: number, anchor: string, says: string): Element =>
        svg("text", { x, y, "text-anchor": anchor, class: "axis" }, says);
    const parts: Element[] = [svg("title", {}, title)];
    for (const v of steps(0, most / 1000, 5)) {
        parts.push(svg("path", { d: `M${LEFT} ${Y(1000 * v)}H${width - RIGHT}`, class: "grid" }),
            text(LEFT - 6, Y(1000 * v) + 4, "end", String(v)));
    }
    for (const m of steps(low / CM, high / CM, isNarrow ? 4 : 8)) {
        parts.push(svg("path", { d: `M${X(m * CM)} ${bottom}v4`, class: "grid" }),
            text(X(m * CM), bottom + 17, "middle", m.toLocaleString("en")));
    }
    parts.push(text(width - RIGHT, HEIGHT - 3, "end", "m"), text(LEFT - 6, TOP - 12, "end", "km/h"));
    for (const [values, kind] of [[limit, "limit"], [speed, "speed"]] as const) {
        const kept = thinned(0, x.length, n => Math.floor(X(x[n] ?? 0)), n => values[n] ?? NaN);
        const points = kept.map((n): [number, number] => [X(x[n] ?? 0), Y(values[n] ?? NaN)]);
        parts.push(svg("path", { d: pathThrough(points, kind === "limit"), class: `${kind}-line`, fill: "none" }));
        if (x.length <= MOST_DOTS) parts.push(svg("path", { d: dotsAt(points), class: `${kind}-dots`, fill: "none" }));
    }
    for (const { index, brake } of marks)
        parts.push(svg("path", {
            d: `M${X(x[index] ?? low)} ${bottom - 9} l-5 9 h10 z`,
            class: brake === 2 ? "mark emergency" : "mark service"
        }));
    const now = X(x[x.length - 1] ?? low);
    root.replaceChildren(...parts, svg("path", { d: `M${now} ${TOP}V${bottom}`, class: "cursor" }));
}
