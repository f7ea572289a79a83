// Where in an image the fields of a record are (docs/reference/format.md), and their bytes with what the calls read.
import {Calls} from "./calls";
import {make} from "./dom";
import {JournalRecord, ODOMETER, POWER_UP, SECTOR, TELEGRAM} from "./layouts";
import {brakeText, count, indicationTexts, kmh, levelText, metres, modeName, permittedText, reading} from "./shown";
import {seconds} from "./shown";
import {KINDS, KINDS_OWED, PLAIN_ACTIONS, SUBJECTS, TELEGRAM_FAULTS, WORDS} from "./texts";

export interface Field {
    name: string;
    offset: number;
    size: number;
    value: string
}

/** The byte of the image at which a record begins. */
export function placeOf(record: JournalRecord, firstEvent: number, slots: number): number {
    const slot = record.block % slots, size = record.format === 1 ? 128 : 256;
    return SECTOR * (1 + 6 * slot + 2) + size * (record.event - firstEvent);
}

export function sizeOf(record: JournalRecord): number { return record.format === 1 ? 128 : 256; }

function head(record: JournalRecord): Field[] {
    const fields: Field[] = [
        { name: "kind", offset: 0, size: 1, value: KINDS[record.kind] ?? "" },
        { name: "mode", offset: 1, size: 1, value: modeName(record.mode) },
        { name: "brake", offset: 2, size: 1, value: brakeText(record.brake) },
        { name: "bytes of the payload", offset: 3, size: 1, value: String(record.payload.length) },
        { name: "level", offset: 4, size: 1, value: levelText(record.level) },
        {
            name: "indications",
            offset: 6,
            size: 2,
            value: `${record.indications}: ${indicationTexts(record.indications).join(", ") || "none"}`
        },
        { name: "event", offset: 8, size: 8, value: count(record.event) },
        { name: "moment", offset: 16, size: 8, value: seconds(record.moment) },
    ];
    if (record.front === null || record.uncertainty === null) return fields;
    return [
        ...fields, { name: "estimated place", offset: 24, size: 8, value: metres(record.front) },
        { name: "uncertainty", offset: 32, size: 8, value: metres(record.uncertainty) },
        { name: "limit", offset: 40, size: 4, value: permittedText(record.limit) }
    ];
}

function telegramText(fault: number, packets: number): string {
    return fault ? `carries no telegram: ${fault} ${TELEGRAM_FAULTS[fault] ?? ""}`
                 : `${packets} packet${packets === 1 ? "" : "s"}`;
}

function driver(payload: Uint8Array): [string, number, number, string][] {
    const view = new DataView(payload.buffer, payload.byteOffset, payload.byteLength), code = payload[0] ?? 0;
    const names: Record<number, string> = {
        1: "enters an identity",
        2: "enters a running number",
        3: "enters train data",
        4: "chooses a level",
        5: "confirms",
        10: "acknowledges",
        ...PLAIN_ACTIONS
    };
    const action: [string, number, number, string] = ["action", 0, 1, `${code}: ${names[code] ?? ""}`];
    if (code === 1) return [action, ["identity", 1, payload.length - 1, new TextDecoder().decode(payload.slice(1))]];
    if (code === 2) return [action, ["running number", 1, 4, String(view.getUint32(1))]];
    if (code === 3) {
        return [
            action, ["length", 1, 4, metres(view.getUint32(1))],
            ["greatest speed", 5, 4, `${kmh(view.getUint32(5))} km/h`],
            ["deceleration", 9, 2, `${view.getUint16(9) / 100} m/s²`],
            ["reaction", 11, 2, seconds(view.getUint16(11))],
            ["category", 13, 1, String(payload[13])]
        ];
    }
    if (code === 4) return [action, ["level", 1, 1, String(payload[1])]];
    if (code === 5) return [action, ["what", 1, 1, SUBJECTS[payload[1] ?? 0] ?? ""]];
    if (code === 10) return [action, ["what", 1, 1, KINDS_OWED[payload[1] ?? 0] ?? ""]];
    return [action];
}

function payload(record: JournalRecord, calls: Calls): [string, number, number, string][] {
    const bytes = record.payload;
    if (record.kind === POWER_UP) return bytes.length ? [["word on movement", 0, 1, WORDS[bytes[0] ?? 0] ?? ""]] : [];
    if (record.kind === TELEGRAM) return [["telegram", 0, bytes.length, telegramText(...calls.decode(bytes))]];
    if (record.kind === ODOMETER) {
        const [movement, speed] = reading(bytes);
        return [["movement", 0, 4, metres(movement)], ["speed", 4, 4, `${kmh(speed)} km/h`]];
    }
    if (record.kind === 4) return [["moment of the clock", 0, 8, seconds(record.moment)]];
    return driver(bytes);
}

/** The fields of a record in the order of its bytes. */
export function fieldsOf(record: JournalRecord, calls: Calls): Field[] {
    const at = record.format === 1 ? 24 : 48;
    return [
        ...head(record),
        ...payload(record, calls).map(([name, offset, size, value]) => ({ name, offset: at + offset, size, value }))
    ];
}

const EACH = 16;

/** Shows the bytes of a record, each field's as one, and the table of its fields; a click shows the other. */
export function showBytes(
    hex: HTMLElement, list: HTMLElement, bytes: Uint8Array, place: number, fields: Field[]): void {
    const spans: HTMLElement[][] = fields.map(() => []), rows: HTMLElement[] = [];
    const choose = (chosen: number): void => {
        spans.forEach((all, n) => all.forEach(span => span.classList.toggle("on", n === chosen)));
        rows.forEach((row, n) => row.classList.toggle("chosen", n === chosen));
    };
    const last = Math.max(...fields.map(field => field.offset + field.size)), lines: HTMLElement[] = [];
    for (let from = 0; from < Math.min(bytes.length, EACH * Math.ceil(last / EACH)); from += EACH) {
        const line = make("div", {}, make("span", { class: "off" }, String(place + from).padStart(7, "0")), " ");
        for (let n = from; n < from + EACH; n++) {
            const field = fields.findIndex(one => one.offset <= n && n < one.offset + one.size);
            const span =
                make("span", field < 0 ? { class: "zero" } : { "data-field": field, click: () => choose(field) },
                    (bytes[n] ?? 0).toString(16).padStart(2, "0"));
            if (field >= 0) spans[field]?.push(span);
            line.append(span, " ");
        }
        lines.push(line);
    }
    hex.replaceChildren(...lines);
    const body = make("tbody");
    fields.forEach((field, n) => {
        const row = make("tr", {
            tabindex: 0,
            click: () => choose(n),
            keydown: event => {
                if ((event as KeyboardEvent).key === "Enter") choose(n);
            }
        },
            make("td", {}, field.name), make("td", {}, field.value),
            make("td", {}, `${count(place + field.offset)}, ${field.size} B`));
        rows.push(row);
        body.append(row);
    });
    list.replaceChildren(make("table", {},
        make("thead", {},
            make("tr", {}, make("th", {}, "field"), make("th", {}, "value"), make("th", {}, "byte of the image"))),
        body));
}
