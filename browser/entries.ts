// What the driver enters at the desk. An entry outside its limits marks its field and names the limit, and isn't handed
// on.
import {at, say} from "./dom";
import {mark, scaledOf} from "./numbers";
import {VALUES} from "./scenario";
import {ENTRY} from "./texts";

interface Entry {
    id: string;
    /** In the unit of the field; what the unit is handed is so many times as much. */
    what: string;
    scale: number;
    limits: [number, number]
}

function entry(id: string, what: string, scale: number, limits: [number, number]|undefined): Entry {
    return { id, what, scale, limits: limits ?? [0, 0] };
}
const TRAIN = VALUES[3] ?? [];
export const RUNNING = [entry("running", "Running number", 1, VALUES[2]?.[0])];
export const TRAIN_DATA = [
    entry("length", "Length in m", 100, TRAIN[0]), entry("maximum", "Greatest speed in km/h", 1000, TRAIN[1]),
    entry("deceleration", "Deceleration in m/s²", 100, TRAIN[2]), entry("reaction", "Reaction in s", 1000, TRAIN[3])
];
const IDENTITY = /^[\x20-\x7e]{1,16}$/;

/** The numbers of some fields, as the unit is handed them; null where one of them isn't within its limits. */
export function numbersOf(entries: Entry[]): number[]|null {
    const numbers: number[] = [];
    let says = "";
    for (const { id, what, scale, limits: [least, most] } of entries) {
        const field = at<HTMLInputElement>(id), number = scaledOf(field.value, scale);
        const isOne = number !== null && number >= least && number <= most;
        mark(field, isOne);
        if (!isOne && !says)
            says = ENTRY.limits(what, (least / scale).toLocaleString("en"), (most / scale).toLocaleString("en"), scale);
        numbers.push(number ?? 0);
    }
    say("entry-error", says);
    return says ? null : numbers;
}

/** The identity that is entered; null where it has none or too many characters, or others than ASCII. */
export function identityOf(): string|null {
    const text = at<HTMLInputElement>("identity").value, isOne = IDENTITY.test(text);
    mark(at("identity"), isOne);
    say("entry-error", isOne ? "" : ENTRY.identity);
    return isOne ? text : null;
}
