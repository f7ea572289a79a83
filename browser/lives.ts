// The records of an image by lives, and the interventions of its brakes.
import {Records} from "./calls";
import {ODOMETER, POWER_UP, TRIP} from "./layouts";

const MOST_ASKED = 64;

export interface LifeRange {
    from: number;
    end: number;
    number: number
}
/** A run of records of a life after which a brake is commanded; each step is where another command begins. */
export interface Intervention {
    first: number;
    last: number;
    steps: { index: number; brake: number }[];
    /** Whether it begins with a power-up, after which the brake is always commanded: then it isn't counted. */
    isPowerUp: boolean;
    /** Whether the last record of its life commands a brake still. */
    goesOn: boolean
}

/**
 * Each life with the indexes of its records; one whose power-up is overwritten begins with the first record. A
 * power-up ends the life before, and so does a gap in the numbers of events.
 */
export function livesOf(records: Records): LifeRange[] {
    const found: LifeRange[] = [];
    for (let n = 0; n < records.count; n++) {
        const last = found[found.length - 1];
        const isBegun = records.kind(n) === POWER_UP || !last || records.event(n) !== records.event(n - 1) + 1;
        if (isBegun) found.push({ from: n, end: n + 1, number: records.get(n).life });
        else last.end = n + 1;
    }
    return found;
}

/** The interventions of all lives, and the power-ups, in their order. */
export function interventionsOf(records: Records, lives: LifeRange[]): Intervention[] {
    const found: Intervention[] = [];
    for (const { from, end } of lives) {
        let open: Intervention|null = null, before = 0;
        for (let n = from; n < end; n++) {
            const brake = records.brake(n);
            if (!brake) open = null;
            else if (!open) {
                open = { first: n, last: n, steps: [], isPowerUp: records.kind(n) === POWER_UP, goesOn: false };
                found.push(open);
            }
            if (open) open.last = n;
            if (open && brake !== before) open.steps.push({ index: n, brake });
            before = brake;
        }
        if (open) open.goesOn = true;
    }
    return found;
}

/** The records that entered Trip. */
export function tripsOf(records: Records, lives: LifeRange[]): number[] {
    const found: number[] = [];
    for (const { from, end } of lives)
        for (let n = from + 1; n < end; n++)
            if (records.mode(n) === TRIP && records.mode(n - 1) !== TRIP) found.push(n);
    return found;
}

/** The last intervention; null where there were only power-ups. */
export function lastOf(interventions: Intervention[]): Intervention|null {
    return [...interventions].reverse().find(one => !one.isPowerUp) ?? null;
}

/** The records of an intervention whose causes are asked: all, or of a long one those at which something changed. */
export function askedOf(records: Records, {first, last}: Intervention): number[] {
    const all = Array.from({ length: last - first + 1 }, (_, n) => first + n);
    if (all.length <= MOST_ASKED) return all;
    const isSame = (n: number): boolean => records.brake(n) === records.brake(n - 1) &&
        records.mode(n) === records.mode(n - 1) && records.indications(n) === records.indications(n - 1);
    return [...all.filter(n => n === first || !isSame(n)).slice(0, MOST_ASKED - 1), last];
}

/** Of each record the speed of the last reading of its life, 0 from a power-up on; NaN where there is neither. */
export function speedsOf(records: Records, lives: LifeRange[]): Float64Array {
    const speeds = new Float64Array(records.count);
    for (const { from, end } of lives) {
        let speed = records.kind(from) === POWER_UP ? 0 : NaN;
        for (let n = from; n < end; n++) {
            if (records.kind(n) === ODOMETER) speed = records.readSpeed(n);
            speeds[n] = speed;
        }
    }
    return speeds;
}
