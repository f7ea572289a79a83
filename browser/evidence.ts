// What an investigator hands on: findings and records of an image as JSON, CSV and a report as HTML.
import {causeTextsOf, tripReason} from "./brief";
import {Records} from "./calls";
import {at, save} from "./dom";
import {AskedImage} from "./image";
import {BRAKE_WORDS, MODES} from "./layouts";
import {indicationWords} from "./shown";
import {VERDICTS} from "./texts";

// The names of `etcs_lab events` (docs/reference/json.md).
const KINDS = ["", "powerup", "telegram", "odometer", "clock", "driver"];
/** The status of `lab check` where it finds something. */
const NOT_WHOLE = 4;

/** A row for each record, its members in the order of the columns of the CSV. */
function rowsOf(records: Records, speeds: Float64Array): object[] {
    return Array.from({ length: records.count }, (_, n) => {
        const record = records.get(n), speed = speeds[n] ?? NaN;
        return {
            event: record.event,
            life: record.life,
            block: record.block,
            kind: KINDS[record.kind] ?? "",
            time_ms: record.moment,
            mode: MODES[record.mode]?.[0] ?? "",
            level: record.level === 255 ? null : record.level,
            brake: BRAKE_WORDS[record.brake] ?? "",
            indications: indicationWords(record.indications),
            place_cm: record.front,
            uncertainty_cm: record.uncertainty,
            limit_m_per_h: record.limit,
            speed_m_per_h: Number.isNaN(speed) ? null : speed
        };
    });
}

/** A value as JSON. A bigint is written as the number that it is, which no text of the value can look like. */
function jsonText(value: object): string {
    const mark = crypto.randomUUID();
    const text =
        JSON.stringify(value, (_, one: unknown) => typeof one === "bigint" ? `${mark}${one}` : one, 1) + "\n";
    return text.replace(new RegExp(`"${mark}(\\d+)"`, "g"), "$1");
}

/** The version of this page. */
function build(): string { return at("version").textContent ?? ""; }

/** The records, a row each. No cell is taken for a formula: all texts are keywords. */
function csvOf({ speeds }: AskedImage, records: Records): string {
    const cell = (value: unknown): string => Array.isArray(value) ? value.join(" ") : String(value ?? "");
    const rows = rowsOf(records, speeds), lines = rows.map(row => Object.values(row).map(cell).join(","));
    return [Object.keys(rows[0] ?? {}).join(","), ...lines].join("\r\n") + "\r\n";
}

/** All findings about an image, and its records. */
function jsonOf(image: AskedImage, records: Records): string {
    const { name, bytes, digest, facts, counted: causes, trips, verdict, braking, speeds } = image;
    const interventions = image.interventions.filter(one => !one.isPowerUp).map(one => ({
        first_event: records.event(one.first),
        last_event: records.event(one.last),
        commands: one.steps.map(({ brake }) => BRAKE_WORDS[brake] ?? ""),
        causes: causeTextsOf(one.steps.map(({ index }) => causes.get(index))),
    }));
    return jsonText({
        page: build(),
        image: { name, bytes: bytes.length, sha256: digest, slots: facts?.slots ?? 0 },
        verdict: verdict && { status: verdict.length ? NOT_WHOLE : 0, says: verdict },
        whole: image.isWhole,
        unreadable_blocks: image.unreadable,
        lives: (image.replays ?? []).map(life => ({
            life: life.life,
            first_event: life.first,
            last_event: life.last,
            replay: VERDICTS[life.verdict] ?? "",
        })),
        interventions,
        trips: trips.map(index => ({ event: records.event(index), cause: tripReason(causes.get(index)) })),
        braking,
        events: rowsOf(records, speeds),
    });
}

/** The report as one page without a program: what is shown of the image, without what can be pressed. */
function reportOf({ name, digest }: AskedImage): string {
    const page = document.implementation.createHTMLDocument(`${name}: report`), time = new Date().toISOString(),
          body = at("answers").cloneNode(true) as Element;
    for (const one of body.querySelectorAll("button, input, label, select, script, .scrub")) one.remove();
    body.removeAttribute("hidden");
    const head = page.createElement("meta"), css = page.createElement("style"), says = page.createElement("p");
    head.setAttribute("charset", "utf-8");
    css.textContent = document.querySelector("style")?.textContent ?? "";
    says.textContent = `${name}, SHA-256 ${digest}. Gaknifur ${build()}. ` +
        `Saved at ${time}, by the clock of this computer.`;
    page.head.prepend(head);
    page.head.append(css);
    page.body.append(says, body);
    return "<!DOCTYPE html>\n" + page.documentElement.outerHTML + "\n";
}

/** The buttons that save what is found. They do nothing where there is nothing to save yet. */
export function offerToSave(found: () => AskedImage | null): void {
    const kinds: [string, string, string, (image: AskedImage, records: Records) => string][] = [
        ["json", "json", "application/json", jsonOf], ["csv", "csv", "text/csv", csvOf],
        ["report", "html", "text/html", reportOf]
    ];
    for (const [kind, end, type, text] of kinds)
        at(`save-${kind}`).addEventListener("click", () => {
            const image = found();
            if (image?.records) save(`${image.name}.${end}`, text(image, image.records), type);
        });
}
