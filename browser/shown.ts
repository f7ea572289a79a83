// Events, causes and numbers as people read them.
import {CAUSES, INDICATIONS, JournalRecord, Kept, LIMITS, MODES, ODOMETER, POWER_UP} from "./layouts";
import {TELEGRAM, TRIPS, Why} from "./layouts";
import {hexOf} from "./hex";
import {BRAKES, DATUM, KINDS_OWED, PLAIN_ACTIONS, SAY, SUBJECTS, WORDS} from "./texts";

export function kmh(speed: number): string { return (speed / 1000).toFixed(1); }
/** A speed; NaN is one that no reading gives. */
export function speedText(speed: number): string { return Number.isNaN(speed) ? SAY.unknown : `${kmh(speed)} km/h`; }
export function metres(cm: number|bigint): string {
    if (typeof cm === "bigint") return `${(cm / 100n).toLocaleString("en")}.${String(cm % 100n).padStart(2, "0")} m`;
    return (cm / 100).toLocaleString("en", { minimumFractionDigits: 2, maximumFractionDigits: 2 }) + " m";
}
/** A place of a record with its uncertainty, and a limit: a record of format 1 has neither. */
export function placeText(front: number|null): string { return front === null ? SAY.notRecorded : metres(front); }
export function frontText({front, uncertainty}: Pick<JournalRecord, "front"|"uncertainty">): string {
    return uncertainty === null ? placeText(front) : `${placeText(front)} ± ${metres(uncertainty)}`;
}
export function permittedText(limit: number|null): string {
    return limit === null ? SAY.notRecorded : `${kmh(limit)} km/h`;
}
export function seconds(ms: number): string {
    return (ms / 1000).toLocaleString("en", { maximumFractionDigits: 3 }) + " s";
}
export function count(number: number): string { return number.toLocaleString("en"); }
export function modeName(mode: number): string { return MODES[mode]?.[1] ?? `mode ${mode}`; }
export function modeWord(mode: number): string { return MODES[mode]?.[0] ?? `${mode}`; }
export function levelText(level: number): string { return level === 255 ? "–" : String(level); }
export function brakeText(brake: number): string { return BRAKES[brake] ?? `brake ${brake}`; }
export function indicationTexts(sum: number): string[] {
    return INDICATIONS.filter(([bit]) => sum & bit).map(([, , text]) => text);
}
/** The words of `etcs_lab` and of test cases. */
export function indicationWords(sum: number): string[] {
    return INDICATIONS.filter(([bit]) => sum & bit).map(([, word]) => word);
}

export function trainText(numbers: [number, number, number, number, number]): string {
    const [length, maximum, deceleration, reaction, category] = numbers;
    return `${metres(length)}, up to ${kmh(maximum)} km/h, brakes at ${(deceleration / 100).toFixed(2)} m/s² after ${
               seconds(reaction)}, ` +
        (category === 15 ? "no category" : `category ${category}`);
}

function action(payload: Uint8Array): string {
    const view = new DataView(payload.buffer, payload.byteOffset, payload.byteLength), code = payload[0] ?? 0;
    if (code === 1) return `enters the identity “${new TextDecoder().decode(payload.slice(1))}”`;
    if (code === 2) return `enters the running number ${view.getUint32(1)}`;
    if (code === 3) {
        return "enters train data: " +
            trainText([view.getUint32(1), view.getUint32(5), view.getUint16(9), view.getUint16(11), payload[13] ?? 0]);
    }
    if (code === 4) return `chooses level ${payload[1]}`;
    if (code === 5) return `confirms ${SUBJECTS[payload[1] ?? 0]}`;
    if (code === 10) return `acknowledges ${KINDS_OWED[payload[1] ?? 0]}`;
    return PLAIN_ACTIONS[code] ?? `action ${code}`;
}

/** The content of an odometer reading: the movement in cm, and the speed in m/h. */
export function reading(payload: Uint8Array): [number, number] {
    const view = new DataView(payload.buffer, payload.byteOffset, payload.byteLength);
    return [view.getInt32(0), view.getUint32(4)];
}

export function eventText(record: JournalRecord): string {
    const { kind, payload } = record;
    if (kind === POWER_UP) return "power-up: " + WORDS[payload[0] ?? 0];
    if (kind === TELEGRAM) return "telegram " + hexOf(payload).toUpperCase();
    if (kind === ODOMETER) {
        const [movement, speed] = reading(payload);
        return `moved ${metres(movement)}, at ${kmh(speed)} km/h`;
    }
    if (kind === 4) return `moment ${seconds(record.moment)}`;
    return "the driver " + action(payload);
}

export function limitText(why: Why): string {
    const [says, section] = LIMITS[why.limitCause] ?? ["", ""];
    const number = why.restriction === null ? "" : `, number ${why.restriction}`;
    return `${says.slice(0, 1).toUpperCase()}${says.slice(1)}: ${kmh(why.causeSpeed)} km/h${
        why.causeAt === null ? "" : ` at ${metres(why.causeAt)}`}${number} (${section}).`;
}

/** A cause of the brake, with the event since which it holds and what ends it. */
export function causeText(cause: number, since: number|undefined): string {
    const [says, ends] = CAUSES[cause] ?? ["", ""];
    return `${says} (since event ${since}; ${ends})`;
}

/** The causes of the brake that hold, each with its end. */
export function causeTexts(why: Why): string[] {
    return why.holds.flatMap((holds, n) => holds ? [causeText(n, why.since[n])] : []);
}

/** Why the train was tripped. */
export function tripCauseText(why: Why): string { return TRIPS[why.tripCause] ?? ""; }

export function tripText(why: Why): string|null {
    if (!why.holds[3]) return null;
    return `The train was tripped: ${TRIPS[why.tripCause]}${why.tripCause ? `, event ${why.tripEvent}` : ""}.`;
}

export function brakeReason(why: Why|null, output: {brake: number}): string[] {
    if (!why) return [SAY.noCause];
    const causes = causeTexts(why), trip = tripText(why);
    return [...(causes.length ? causes : [output.brake ? SAY.noCause : SAY.noBrake]), ...(trip ? [trip] : [])];
}

export function keptTexts(kept: Kept): [string, string][] {
    const { train } = kept;
    return [
        ["identity", kept.identity ?? "none"],
        ["running number", kept.runningNumber === null ? "none" : String(kept.runningNumber)],
        [
            "train data",
            train ? trainText([train.length, train.maximum, train.deceleration, train.reaction, train.category])
                  : "none"
        ],
        ["level", kept.levelStatus ? `${kept.level}, ${DATUM[kept.levelStatus]}` : "unknown"],
        [
            "position",
            kept.positionStatus
                ? `${metres(kept.distance)} beyond group ${kept.country}/${kept.group}, ${DATUM[kept.positionStatus]}`
                : "unknown"
        ],
        ["trip", kept.tripOutstanding ? "outstanding" : "none outstanding"],
    ];
}
