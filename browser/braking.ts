// Whether the train braked after each brake command, and whether as its train data promise. docs/reference/lab.md (Did
// the train brake) has the definitions, in the same terms. Rows are saved as they are, so their members have the names
// of that page.
import {Records} from "./calls";
import {DRIVER, ODOMETER, POWER_UP, STAND_BY, TRIP} from "./layouts";
import {reading} from "./shown";

/** The least and the greatest value; null where it is unknown or unbounded. */
export type Pair = [number | null, number | null];
export type Promise = "kept"|"broken"|"not_sure"|null;
export interface Braking {
    life: number;
    first_event: number;
    last_event: number;
    brake: "service"|"emergency";
    trip_event: number|null;
    answer: "standing"|"too_few"|"not_slowed"|"slowed"|"stopped";
    until: "standstill"|"released"|"changed"|"end";
    speed_m_per_h: number|null;
    begins_ms: Pair;
    begins_cm: Pair;
    rate_cm_per_s2: Pair;
    ends_ms: Pair;
    way_cm: Pair;
    deceleration_cm_per_s2: number|null;
    reaction_ms: number|null;
    promised_cm: number|null;
    reaction: Promise;
    rate: Promise;
    way: Promise
}
interface Train {
    deceleration: number;
    reaction: number
}
interface Reading {
    moment: number;
    speed: number;
    /** The way since the reading before the command. */
    way: number
}
const ENTER_TRAIN_DATA = 3, UNKNOWN: Pair = [null, null];

/** A quotient of whole numbers, rounded down or up. */
function divided(number: number, by: number, isUp: boolean): number {
    const [one, other] = [BigInt(number), BigInt(by)];
    return Number(isUp ? (one + other - 1n) / other : one / other);
}

/** Whether the next record is of the same stretch. */
function goesOn(records: Records, n: number): boolean {
    return n + 1 < records.count && records.life(n + 1) === records.life(n) &&
        records.event(n + 1) === records.event(n) + 1;
}

/** The records of a life whose numbers follow one another. */
class Stretch {
    private sorted: Float64Array|null = null;

    constructor(readonly records: Records, readonly from: number, readonly end: number) {}

    /** The moment before which a record of this moment came; null where none follows. */
    private next(moment: number): number|null {
        const { records, from, end } = this;
        const all = this.sorted ??=
            Float64Array.from({ length: end - from }, (_, n) => records.moment(from + n)).sort();
        let low = 0, high = all.length;
        while (low < high) {
            const middle = (low + high) >> 1;
            if ((all[middle] ?? 0) <= moment) low = middle + 1;
            else high = middle;
        }
        return all[low] ?? null;
    }

    /** The least and the greatest time from a record of one moment to one of another. */
    span(from: number, to: number): Pair {
        const begins = this.next(from), ends = this.next(to);
        return [begins === null ? 0 : Math.max(0, to - begins), ends === null ? null : ends - from];
    }
}

/** A run of records of a stretch with one brake command, and its readings: that before it has the number 0. */
class Command {
    readonly readings: Reading[] = [];
    readonly first: number;
    /** The number of the last reading, and of the last one with the greatest speed. */
    readonly last: number;
    readonly greatest: number;
    private readonly unsure: number;

    constructor(private readonly stretch: Stretch, readonly from: number, readonly to: number, before: number|null,
        private readonly train: Train|null) {
        const { records, end } = stretch, isBefore = before !== null;
        let way = 0, isMoving = false;
        const add = (n: number, speed: number): void => {
            this.readings.push({ moment: records.moment(n), speed, way });
            isMoving ||= speed > 0;
        };
        if (isBefore) add(before, records.kind(before) === ODOMETER ? records.readSpeed(before) : 0);
        for (let n = from + 1; n <= Math.min(to + 1, end - 1); n++) {
            if (records.kind(n) !== ODOMETER) continue;
            way += Math.abs(reading(records.get(n).payload)[0]);
            add(n, records.readSpeed(n));
            if (isMoving && records.readSpeed(n) === 0) break;
        }
        this.first = isBefore ? 0 : 1;
        this.last = this.first + this.readings.length - 1;
        this.unsure = records.kind(from) === ODOMETER ? 0 : this.at(1)?.way ?? 0;
        const most = this.readings.reduce((greatest, { speed }) => Math.max(greatest, speed), 0);
        this.greatest = this.first + this.readings.map(({ speed }) => speed).lastIndexOf(most);
    }

    private at(number: number): Reading|undefined { return this.readings[number - this.first]; }
    private moment(number: number): number { return this.at(number)?.moment ?? 0; }
    private speed(number: number): number { return this.at(number)?.speed ?? 0; }
    private least(number: number): number { return Math.max(0, (this.at(number)?.way ?? 0) - this.unsure); }
    private most(number: number): number { return this.at(number)?.way ?? 0; }
    /** The last reading, or where the train stopped, the one before it. */
    private get moving(): number { return this.speed(this.last) ? this.last : this.last - 1; }

    get answer(): Braking["answer"] {
        const { readings, greatest, last } = this;
        if (readings.length && readings.every(({ speed }) => !speed)) return "standing";
        if (readings.length < 2) return "too_few";
        return greatest === last ? "not_slowed" : this.speed(last) ? "slowed" : "stopped";
    }

    private get until(): Braking["until"] {
        const { stretch: { records, end }, to } = this;
        if (this.answer === "stopped") return "standstill";
        return to + 1 >= end ? "end" : records.brake(to + 1) ? "changed" : "released";
    }

    private get tripEvent(): number|null {
        const { stretch: { records, from: begin }, from, to } = this;
        for (let n = Math.max(from, begin + 1); n <= to; n++)
            if (records.mode(n) === TRIP && records.mode(n - 1) !== TRIP) return records.event(n);
        return null;
    }

    private get rate(): Pair {
        const { stretch, greatest, last, moving } = this;
        if (greatest === last) return UNKNOWN;
        const lost = 1000 * (this.speed(greatest) - this.speed(last));
        const longest = stretch.span(this.moment(greatest), this.moment(last))[1] ?? 0,
              shortest = moving > greatest ? stretch.span(this.moment(greatest + 1), this.moment(moving))[0] ?? 0 : 0;
        return [longest ? divided(lost, 36 * longest, false) : 0, shortest ? divided(lost, 36 * shortest, true) : null];
    }

    /** Times and ways. */
    private figures(): Pick<Braking, "begins_ms"|"begins_cm"|"rate_cm_per_s2"|"ends_ms"|"way_cm"> {
        const { stretch, from, greatest: k, last, moving } = this, start = stretch.records.moment(from);
        const isSlowed = k < last;
        return {
            begins_ms: [
                k ? stretch.span(start, this.moment(k))[0] : 0,
                isSlowed ? stretch.span(start, this.moment(k + 1))[1] : null
            ],
            begins_cm: [k ? this.least(k) : 0, isSlowed ? this.most(k + 1) : null],
            rate_cm_per_s2: this.rate,
            ends_ms:
                [moving ? stretch.span(start, this.moment(moving))[0] : 0, stretch.span(start, this.moment(last))[1]],
            way_cm: [this.least(last), this.most(last)]
        };
    }

    row(): Braking {
        const { stretch: { records }, from, to, answer, train } = this, none = ["standing", "too_few"].includes(answer);
        const v0 = this.first ? null : this.speed(0);
        const row: Braking = {
            life: records.life(from),
            first_event: records.event(from),
            last_event: records.event(to),
            brake: records.brake(from) === 2 ? "emergency" : "service",
            trip_event: this.tripEvent,
            answer,
            until: this.until,
            speed_m_per_h: v0,
            ...none
                ? { begins_ms: UNKNOWN, begins_cm: UNKNOWN, rate_cm_per_s2: UNKNOWN, ends_ms: UNKNOWN, way_cm: UNKNOWN }
                : this.figures(),
            deceleration_cm_per_s2: train && train.deceleration,
            reaction_ms: train && train.reaction,
            promised_cm: null,
            reaction: null,
            rate: null,
            way: null
        };
        return none || !train || v0 === null ? row : {...row, ...promisesOf(row, train, v0) };
    }
}

/** The way to standstill that train data promise on level track, each term rounded up. */
function promisedWay(v0: number, { deceleration, reaction }: Train): number {
    const square = BigInt(v0) * BigInt(v0), by = 2592n * BigInt(deceleration);
    return divided(v0 * reaction, 36_000, true) + Number((square + by - 1n) / by);
}

function compared(isKept: boolean, isBroken: boolean): Promise {
    return isKept ? "kept" : isBroken ? "broken" : "not_sure";
}

/** What the figures of a row say about its train data. */
function promisesOf(row: Braking, train: Train, v0: number): Partial<Braking> {
    const promised = promisedWay(v0, train), { begins_ms: begins, rate_cm_per_s2: rate, way_cm: way } = row;
    const isAtMost = (most: number|null, bound: number): boolean => most !== null && most <= bound;
    return {
        promised_cm: promised,
        reaction: compared(isAtMost(begins[1], train.reaction), (begins[0] ?? 0) > train.reaction),
        rate: row.answer === "not_slowed"
            ? null
            : compared((rate[0] ?? 0) >= train.deceleration, rate[1] !== null && rate[1] < train.deceleration),
        way: compared(row.answer === "stopped" && isAtMost(way[1], promised), (way[0] ?? 0) > promised)
    };
}

/** The train data after a record of the driver. */
function trainAfter(records: Records, n: number, train: Train|null): Train|null {
    const { payload } = records.get(n);
    if (payload[0] !== ENTER_TRAIN_DATA) return train;
    const view = new DataView(payload.buffer, payload.byteOffset, payload.byteLength);
    return { deceleration: view.getUint16(9), reaction: view.getUint16(11) };
}

/** A row for each brake command. */
export function brakingOf(records: Records): Braking[] {
    const rows: Braking[] = [];
    let train: Train|null = null;
    for (let from = 0, end = 0; from < records.count; from = end) {
        for (end = from + 1; goesOn(records, end - 1);) end++;
        const stretch = new Stretch(records, from, end);
        let before: number|null = null, to = from - 1;
        for (let n = from; n < end; n++) {
            const kind = records.kind(n), brake = records.brake(n);
            if (kind === ODOMETER || kind === POWER_UP) before = n;
            if (brake && n > to) {
                for (to = n; to + 1 < end && records.brake(to + 1) === brake;) to++;
                rows.push(new Command(stretch, n, to, before, train).row());
            }
            if (kind === DRIVER && records.mode(n) === STAND_BY) train = trainAfter(records, n, train);
        }
    }
    return rows;
}
