// The picture of the signals in a window of an axis: speed and limit, the other axis, and bands of brake, mode, level
// and events.
import {bounds, dotsAt, pathThrough, steps, thinned} from "./chart";
import {svg} from "./dom";
import {modeWord} from "./shown";
import {Axis, range, Signals} from "./signals";
import {VIEW} from "./wording";

export const LEFT = 58, RIGHT = 10, TOP = 22, BOTTOM = 350, HEIGHT = 392;
const MAIN: [number, number] = [TOP, 206], OTHER: [number, number] = [220, 268], MIDDLE = 250;
const LANES = {
    brake: 276,
    mode: 294,
    level: 312,
    events: 330
},
      LANE = 14, MOST_DOTS = 300, EACH_TICK = 90, EACH_NAME = 46;
/** The state of a column in which no record has a mode or level, or several have different ones. */
const NOTHING = 255, SEVERAL = 254;
/** How high a column's events are drawn, by their number. */
const TICKS = [0, 6, 10, 10, LANE];

/** What is drawn. */
export interface Scene {
    signals: Signals;
    axis: Axis;
    /** Where a brake is commanded. */
    commands: { index: number; brake: number }[];
    from: number;
    to: number;
    width: number
}
/** What holds in each column of a window: the worst brake, mode and level; and how many events are in it. */
export interface Columns {
    brake: Uint8Array;
    mode: Uint8Array;
    level: Uint8Array;
    events: Uint32Array;
    /** Events in the window. */
    count: number
}

export function plotWidth(width: number): number { return Math.max(100, Math.round(width - LEFT - RIGHT)); }

/** The columns of a window. A state holds up to the next record of its life. */
export function columnsOf({ signals, axis, from, to }: Scene, columns: number): Columns {
    const states = (): Uint8Array => new Uint8Array(columns).fill(NOTHING), { x } = axis;
    const all = { brake: new Uint8Array(columns), mode: states(), level: states(), events: new Uint32Array(columns) };
    const columnOf = (n: number): number =>
        Math.max(-1, Math.min(columns, Math.floor(((x[n] ?? 0) - from) * columns / (to - from))));
    const merge = (states: Uint8Array, c: number, state: number): void => {
        if (state !== NOTHING && states[c] !== state) states[c] = states[c] === NOTHING ? state : SEVERAL;
    };
    let count = 0;
    for (const span of axis.spans) {
        const [first, end] = range(axis, span, from, to);
        for (let n = first; n < end; n++) {
            const own = columnOf(n), next = n + 1 < end ? columnOf(n + 1) : own, by = next < own ? -1 : 1;
            if (own >= 0 && own < columns) {
                all.events[own] = (all.events[own] ?? 0) + 1;
                count++;
            }
            for (let c = own; c === own || c * by < next * by; c += by) {
                all.brake[c] = Math.max(all.brake[c] ?? 0, signals.brake[n] ?? 0);
                merge(all.mode, c, signals.mode[n] ?? NOTHING);
                merge(all.level, c, signals.level[n] ?? NOTHING);
            }
        }
    }
    return {...all, count };
}

/** The records that are drawn of a signal in a window, of each span. */
export function drawnOf({ axis, from, to }: Scene, values: Float64Array, columns: number, all: boolean): number[][] {
    const columnOf = (n: number): number => Math.floor(((axis.x[n] ?? 0) - from) * columns / (to - from));
    return axis.spans.map(span => {
        const [first, end] = range(axis, span, from, to);
        return all ? Array.from({ length: end - first }, (_, n) => first + n)
                   : thinned(first, end, columnOf, n => values[n] ?? NaN);
    });
}

class Painter {
    private readonly parts: Element[] = [];
    /** What is cut off at the borders of the plot. */
    private readonly lines: Element[] = [];
    private readonly inner: number;
    readonly columns: Columns;

    constructor(private readonly scene: Scene) {
        this.inner = plotWidth(scene.width);
        this.columns = columnsOf(scene, this.inner);
    }

    private get isSparse(): boolean { return this.columns.count <= MOST_DOTS; }
    private X(x: number): number {
        return LEFT + this.inner * (x - this.scene.from) / (this.scene.to - this.scene.from);
    }
    private text(x: number, y: number, anchor: string, says: string, kind = "axis"): void {
        this.parts.push(svg("text", { x: x.toFixed(1), y, "text-anchor": anchor, class: kind }, says));
    }
    private path(d: string, kind: string, parts = this.parts): void {
        if (d) parts.push(svg("path", { d, class: kind, fill: "none" }));
    }

    paint(): Element[] {
        const { axis: { kind }, signals: { limit, speed } } = this.scene;
        const drawn = [limit, speed].map(values => drawnOf(this.scene, values, this.inner, this.isSparse));
        const tops = [limit, speed].map((values, n) => bounds((drawn[n] ?? []).flat().map(m => values[m] ?? NaN))[1]);
        const most = 1.08 * Math.max(10_000, ...tops);
        const Y = (v: number): number => MAIN[1] - (MAIN[1] - MAIN[0]) * v / most, rules = steps(0, most / 1000, 5);
        this.path(rules.map(v => `M${LEFT} ${Y(1000 * v).toFixed(1)}h${this.inner}`).join(""), "grid");
        for (const v of rules) this.text(LEFT - 6, Y(1000 * v) + 4, "end", String(v));
        this.lives();
        this.band("brake", state => state === 0, state => VIEW.brakes[state] ?? "");
        for (const name of ["mode", "level"] as const)
            this.band(name, state => state === NOTHING, state => state === SEVERAL ? VIEW.several
                    : name === "mode"                                              ? modeWord(state)
                                                                                   : String(state));
        this.events();
        this.line(limit, drawn[0] ?? [], Y, "limit");
        this.line(speed, drawn[1] ?? [], Y, "speed");
        this.other();
        this.commands();
        this.text(4, TOP - 8, "start", "km/h");
        this.text(LEFT + this.inner, HEIGHT - 6, "end", VIEW.units[kind]);
        const plot = { x: LEFT, width: this.inner, height: HEIGHT, viewBox: `${LEFT} 0 ${this.inner} ${HEIGHT}` };
        return [...this.parts, svg("svg", plot, ...this.lines)];
    }

    /** The other axis: the place over time, or the time over places. */
    private other(): void {
        const { axis: { kind }, signals } = this.scene, isPlace = kind === "place";
        const values = isPlace ? signals.moment : signals.place;
        const drawn = drawnOf(this.scene, values, this.inner, this.isSparse);
        const known = drawn.flat().map(n => values[n] ?? NaN).filter(Number.isFinite), [low, high] = bounds(known);
        const [unit, per] = isPlace ? ["s", 1000] : high < 1e7 ? ["m", 100] : ["km", 100_000];
        const Y = (v: number): number => OTHER[1] - (OTHER[1] - OTHER[0]) * (v - low) / (high - low || 1);
        const text = (value: number): string => `${Math.round(value / per).toLocaleString("en")} ${unit}`;
        if (known.length) {
            this.text(LEFT - 6, OTHER[0] + 8, "end", text(high));
            this.text(LEFT - 6, OTHER[1], "end", text(low));
        } else if (!isPlace) this.text(LEFT + 6, MIDDLE, "start", VIEW.noPlaces);
        this.text(LEFT - 6, MIDDLE, "end", isPlace ? VIEW.lanes.moment : VIEW.lanes.place);
        this.line(values, drawn, Y, "other");
    }

    /** A signal, with dots where each record is drawn. */
    private line(values: Float64Array, drawn: number[][], Y: (v: number) => number, kind: string): void {
        const { axis } = this.scene;
        const points = drawn.map(
            all => all.map((n): [number, number] => [this.X(axis.x[n] ?? 0), Y(values[n] ?? NaN)]));
        this.path(points.map(all => pathThrough(all, kind === "limit")).join(""), `${kind}-line`, this.lines);
        if (this.isSparse) this.path(points.map(dotsAt).join(""), `${kind}-dots`, this.lines);
    }

    /** A band of states, a path for each; those of no interest are left out. */
    private band(name: "brake"|"mode"|"level", isEmpty: (state: number) => boolean,
        text: (state: number) => string): void {
        const y = LANES[name], states = this.columns[name], paths = new Map<number, string>();
        const texts: [number, string][] = [];
        for (let from = 0, end = 0; from < states.length; from = end) {
            const state = states[from] ?? NOTHING;
            for (end = from + 1; end < states.length && states[end] === state;) end++;
            if (isEmpty(state)) continue;
            const width = end - from, says = text(state);
            paths.set(state, `${paths.get(state) ?? ""}M${LEFT + from} ${y}h${width}v${LANE}h${- width}z`);
            if (width > 7 * says.length + 6) texts.push([LEFT + from + width / 2, says]);
        }
        for (const [state, d] of paths)
            this.parts.push(svg("path", { d, class: `band ${name}-band state-of-${state}` },
                svg("title", {}, `${VIEW.lanes[name]} ${text(state)}`)));
        for (const [x, says] of texts) this.text(x, y + 11, "middle", says, "band-text");
        this.text(LEFT - 6, y + 11, "end", VIEW.lanes[name]);
    }

    private events(): void {
        let path = "";
        this.columns.events.forEach((number, c) => {
            const height = TICKS[Math.min(number, TICKS.length - 1)] ?? LANE;
            if (height) path += `M${LEFT + c} ${LANES.events + LANE}v${- height}h1v${height}z`;
        });
        this.parts.push(svg("path", { d: path || "M0 0", class: "event-ticks" }));
        this.text(LEFT - 6, LANES.events + 11, "end", VIEW.lanes.events);
    }

    /** Where a brake is commanded. */
    private commands(): void {
        const { commands, axis } = this.scene, paths = { service: "", emergency: "" };
        for (const { index, brake } of commands) {
            const place = axis.x[index] ?? NaN;
            if (place >= this.scene.from && place <= this.scene.to)
                paths[brake === 2 ? "emergency" : "service"] += `M${this.X(place).toFixed(1)} ${MAIN[1] - 9}l-5 9h10z`;
        }
        for (const [kind, d] of Object.entries(paths)) this.path(d, `mark ${kind}`);
    }

    /** Where each life begins, with its number where there are several, and the labels of the axis. */
    private lives(): void {
        const { axis: { lives }, from, to } = this.scene;
        let named = -Infinity, lines = "";
        for (const { number, low, high, offset } of lives) {
            if (high < from || low > to) continue;
            const left = this.X(Math.max(low, from)), right = this.X(Math.min(high, to));
            if (low >= from) lines += `M${left.toFixed(1)} ${TOP}V${BOTTOM}`;
            if (lives.length > 1 && left - named > EACH_NAME)
                this.text((named = left) + 3, TOP - 8, "start", VIEW.life(number));
            this.ticks(Math.max(low, from) - offset, Math.min(high, to) - offset, offset, right - left);
        }
        this.path(lines, "life-line");
    }

    private ticks(low: number, high: number, offset: number, width: number): void {
        const { axis: { per, kind } } = this.scene, about = Math.floor(width / EACH_TICK);
        let marks = "";
        for (const tick of about < 1 ? [] : steps(low / per, high / per, about)) {
            const x = this.X(tick * per + offset);
            marks += `M${x.toFixed(1)} ${BOTTOM}v4`;
            if (kind !== "event" || Number.isInteger(tick))
                this.text(x, BOTTOM + 17, "middle", tick.toLocaleString("en"), "axis tick-label");
        }
        this.path(marks, "grid");
    }
}

/** The elements of a scene, and how many events are in its window. */
export function paint(scene: Scene): [Element[], number] {
    const painter = new Painter(scene);
    return [painter.paint(), painter.columns.count];
}
