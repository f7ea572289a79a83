// The signals of an image as arrays with a value for each record, and the axes over which they are drawn: the lives one
// after the other.
import {Records} from "./calls";
import {bounds} from "./chart";
import {LifeRange} from "./lives";

export interface Signals {
    /** The number of the event. */
    event: Float64Array;
    moment: Float64Array;
    place: Float64Array;
    /** In m/h; a speed that isn't known is NaN, and so are the place and the limit that a record of format 1 lacks. */
    speed: Float64Array;
    limit: Float64Array;
    brake: Uint8Array;
    mode: Uint8Array;
    level: Uint8Array
}

export function signalsOf(records: Records, speed: Float64Array): Signals {
    const { count: length } = records;
    const numbers = (of: (n: number) => number): Float64Array => Float64Array.from({ length }, (_, n) => of(n));
    const states = (of: (n: number) => number): Uint8Array => Uint8Array.from({ length }, (_, n) => of(n));
    return {
        event: numbers(n => records.event(n)),
        moment: numbers(n => records.moment(n)),
        place: numbers(n => records.front(n) ?? NaN),
        speed,
        limit: numbers(n => records.limit(n) ?? NaN),
        brake: states(n => records.brake(n)),
        mode: states(n => records.mode(n)),
        level: states(n => records.level(n))
    };
}

export type AxisKind = "moment"|"place"|"event";
/** What is one on the labels of each axis. */
const PER: Record<AxisKind, number> = {moment: 1000, place: 100, event: 1};
/** The part of an axis that gaps have. */
const GAPS = 0.04;

/** Where something is on its axis: its values with an offset, from low to high. */
interface Place {
    offset: number;
    low: number;
    high: number
}
/** A life, or a part of one whose records have a value. */
export interface Span extends Place {
    life: LifeRange;
    /** Whether its records stand in the order of the axis. */
    isSorted: boolean
}
export interface Axis extends Place {
    kind: AxisKind;
    /** The place of each record on the axis; NaN where it has none. */
    x: Float64Array;
    spans: Span[];
    lives: (Place&{ number: number })[];
    /** Records that have no place on the axis. */
    leftOut: number;
    /** What is one on its labels. */
    per: number
}

/** The parts of a life whose records have a value: one of format 1 has no place. */
function partsOf(values: Float64Array, { from, end, number }: LifeRange): LifeRange[] {
    const found: LifeRange[] = [];
    let last: LifeRange|null = null;
    for (let n = from; n < end; n++) {
        if (Number.isNaN(values[n])) last = null;
        else if (last) last.end = n + 1;
        else found.push(last = { from: n, end: n + 1, number });
    }
    return found;
}

function spanOf(values: Float64Array, life: LifeRange): Span {
    const own = values.subarray(life.from, life.end), [low, high] = bounds(own);
    return { life, offset: 0, low, high, isSorted: own.every((value, n) => n === 0 || value >= (own[n - 1] ?? 0)) };
}

/** Moves the lives one after the other, with gaps; the parts of a life keep their distances. */
function placeInOrder(spans: Span[], per: number): Axis["lives"] {
    const lives: (Place&{ number: number; spans: Span[] })[] = [];
    for (const span of spans) {
        const { low, high, life: { number } } = span, last = lives[lives.length - 1];
        if (last?.number === number) {
            last.spans.push(span);
            [last.low, last.high] = bounds([last.low, last.high, low, high]);
        } else lives.push({ number, low, high, offset: 0, spans: [span] });
    }
    const gap = Math.max(per, GAPS * lives.reduce((sum, { low, high }) => sum + high - low, 0)) / lives.length;
    let next = lives[0]?.low ?? 0;
    for (const life of lives) {
        const offset = next - life.low;
        next += life.high - life.low + gap;
        for (const one of [life, ...life.spans])
            Object.assign(one, { offset, low: one.low + offset, high: one.high + offset });
    }
    return lives;
}

/** The axis of the moment, the place or the number of an event. */
export function axisOf(kind: AxisKind, signals: Signals, ranges: LifeRange[]): Axis {
    const per = PER[kind], values = signals[kind], x = new Float64Array(values.length).fill(NaN);
    const spans = ranges.flatMap(life => partsOf(values, life)).map(part => spanOf(values, part));
    const lives = placeInOrder(spans, per), [low, high] = bounds(spans.flatMap(span => [span.low, span.high]));
    for (const { life, offset } of spans)
        for (let n = life.from; n < life.end; n++) x[n] = (values[n] ?? 0) + offset;
    const leftOut = x.reduce((all, place) => all + Number(Number.isNaN(place)), 0);
    return { kind, x, spans, lives, offset: 0, low, high: Math.max(high, low + per), leftOut, per };
}

/** The first index from which on the axis has at least a value. */
function lowerBound(x: Float64Array, from: number, end: number, value: number): number {
    let low = from, high = end;
    while (low < high) {
        const middle = (low + high) >> 1;
        if ((x[middle] ?? 0) < value) low = middle + 1;
        else high = middle;
    }
    return low;
}

/** The records of a span that a window may show, with one more at either side. */
export function range(axis: Axis, span: Span, from: number, to: number): [number, number] {
    const { life } = span;
    if (span.high < from || span.low > to) return [life.from, life.from];
    if (!span.isSorted) return [life.from, life.end];
    return [
        Math.max(life.from, lowerBound(axis.x, life.from, life.end, from) - 1),
        Math.min(life.end, lowerBound(axis.x, life.from, life.end, to + 1e-9) + 1)
    ];
}

/** The record that is next to a place of the axis; null where there is none. */
export function nearest({ x }: Axis, place: number): number|null {
    let best: number|null = null, least = Infinity;
    x.forEach((one, n) => {
        const off = Math.abs(one - place);
        if (off < least) [best, least] = [n, off];
    });
    return best;
}
