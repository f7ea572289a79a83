// What the unit makes of a telegram: its calls say whether they take it, and where a fault is.
import {Calls} from "./calls";
import {Wrong} from "./grammar";
import {bitsOf, bytesOfHex, digitsOf} from "./hex";
import {Field, HEAD_BITS, Reading} from "./reading";
import {JUDGED, TELEGRAM_FAULTS} from "./texts";
import {given, telegrams} from "./tracks";

/** What the unit makes of telegrams: takes all, skips something, or refuses one. */
export type Kind = "good"|"warn"|"bad";
export interface Judged {
    /** In hex; empty where the text is no telegram. */
    digits: string;
    says: string;
    kind: Kind
}
const TRUNCATED = 1, WRONG_LENGTH = 2, NO_END = 8, TOO_LONG = 9;
/** Of more digits only the beginning is judged: the unit refuses it for its length. */
const MOST_DIGITS = 2 * given.grammar.mostBytes;
/**
 * The packet from which on the kernel uses nothing (docs/explain/conformance.md), and how many numbers are tried of a
 * variable.
 */
const INFILL = 136, MOST_TRIED = 1024;

export function isHex(text: string): boolean { return /^\s*([0-9A-Fa-f]{2}\s*)+$/.test(text); }

/** The telegram that a text describes, by its variables or in hex. */
export function digitsOfText(text: string): string {
    return isHex(text) ? text.replace(/\s/g, "").toUpperCase() : telegrams.digits(telegrams.parsed(text));
}

/** A telegram in hex by its variables, where these describe all of it. */
export function textOf(digits: string): string {
    try {
        const text = telegrams.text(telegrams.read(digits));
        return telegrams.digits(telegrams.parsed(text)) === digits.toUpperCase() ? text : digits;
    } catch (error) {
        if (error instanceof Wrong) return digits;
        throw error;
    }
}

/** Which packets of a telegram the unit skips, and whether it uses nothing after one. */
function unused(numbers: number[]): string {
    const skipped = numbers.filter(number => !telegrams.reader.isKnown(number));
    if (!skipped.length) return "";
    const infill = numbers.indexOf(INFILL), isBefore = infill >= 0 && infill < numbers.length - 1;
    return JUDGED.skipped(skipped) + (isBefore ? ` ${JUDGED.infill}` : "");
}

/** What the unit says of a telegram that is given by its variables, or in hex. */
export function judge(calls: Calls, text: string): Judged {
    try {
        const all = digitsOfText(text), isLong = all.length > MOST_DIGITS, digits = isLong ? "" : all;
        const [fault, count] = calls.decode(bytesOfHex(all.slice(0, MOST_DIGITS + 2)));
        if (fault) return { digits, kind: "bad", says: JUDGED.refused(fault, TELEGRAM_FAULTS[fault] ?? "") };
        const says = unused(telegrams.reader.read(bitsOf(digits)).packets.map(one => one.number));
        return { digits, kind: says ? "warn" : "good", says: says || JUDGED.obeyed(count) };
    } catch (error) {
        if (error instanceof Wrong) return { digits: "", kind: "bad", says: `${error.message}.` };
        throw error;
    }
}

/** Whether the unit finds another fault, or none, with some other number of a variable and zeros after it. */
function decides(calls: Calls, bits: string, fault: number, { at, width }: Field): boolean {
    for (let number = 0; number < Math.min(2 ** width, MOST_TRIED); number++) {
        const other = bits.slice(0, at) + number.toString(2).padStart(width, "0");
        if (calls.decode(bytesOfHex(digitsOf(other.padEnd(bits.length, "0"))))[0] !== fault) return true;
    }
    return false;
}

/** The first L_PACKET that isn't the number of bits of its packet. */
function wrongLength({ packets }: Reading): Field|null {
    const wrong = packets.find(({ number, at, head, items, rest }) => {
        const length = Number(head[2]?.number);
        return telegrams.reader.isKnown(number) ? items !== null && length !== rest - at : length < HEAD_BITS;
    });
    return wrong?.head[2] ?? null;
}

/**
 * The variable at which the unit finds a fault; null where the bits end too early, or are too many. The unit reports
 * the first fault in the order of the bits. So the shortest beginning of the bytes that is refused so ends with the
 * byte in which the variable ends, and no variable after it there decides on the answer.
 */
export function faultAt(calls: Calls, reading: Reading): Field|null {
    const bytes = bytesOfHex(digitsOf(reading.bits)), [fault] = calls.decode(bytes);
    if (fault === WRONG_LENGTH) return wrongLength(reading);
    if ([0, TRUNCATED, NO_END, TOO_LONG].includes(fault)) return null;
    let size = 1;
    while (calls.decode(bytes.slice(0, size))[0] !== fault) size++;
    const ends = ({ at, width }: Field): boolean => 8 * (size - 1) < at + width && at + width <= 8 * size;
    // (a packet of its own the unit reads to its last variable, also beyond its L_PACKET: it reads no other one then)
    const last = reading.packets.findIndex(({ number, end, rest }) => telegrams.reader.isKnown(number) && rest > end);
    const packets = last < 0 ? reading.packets : reading.packets.slice(0, last + 1);
    const fields = [...reading.header, ...packets.flatMap(one => [...one.head.slice(1), ...one.fields])];
    const bits = reading.bits.slice(0, 8 * size);
    return fields.filter(ends).reverse().find(one => decides(calls, bits, fault, one)) ?? null;
}
