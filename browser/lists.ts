// The lists of an image: its lives, its interventions, and its brake commands. A click on a line leads to its event.
import {interventionTexts, lifeCells} from "./answers";
import {Braking, Pair, Promise} from "./braking";
import {Records} from "./calls";
import {Child, make, pressed, row, show, table} from "./dom";
import {AskedImage} from "./image";
import {POWER_UP, Replay} from "./layouts";
import {brakeText, count, kmh, metres, seconds} from "./shown";
import {BRIEF, WORDS} from "./texts";
import {BRAKED} from "./wording";

/** How many lines are shown. */
const MOST_SHOWN = 500;

export class Lists {
    /** `choose` leads to an event. */
    constructor(private readonly choose: (event: number) => void) {}

    private linked(line: HTMLTableRowElement, event: number): HTMLTableRowElement {
        return pressed(line, () => this.choose(event));
    }

    showLives(records: Records, replays: Replay[]): void {
        const rows = replays.map(life => {
            const index = records.find(life.first), record = index === null ? null : records.get(index);
            const word = record?.kind === POWER_UP ? WORDS[record.payload[0] ?? 0] ?? "" : "not there";
            return this.linked(row(...lifeCells(life, word)), life.verdict === 2 ? life.event : life.first);
        });
        show("lives", table(["life", "events", "power-up", "replay"], rows));
    }

    showInterventions({ interventions, speeds, trips, counted }: AskedImage, records: Records): void {
        const all = interventions.filter(one => !one.isPowerUp), causes = counted;
        const rows = all.slice(-MOST_SHOWN).map(one => {
            const texts = interventionTexts(records, one, speeds[one.first] ?? NaN, trips, causes);
            return this.linked(row(...texts), records.event(one.first));
        });
        const heads = ["events", "place", "time", "speed", "limit", "command", "causes"];
        show("interventions", all.length ? table(heads, rows) : BRIEF.noIntervention, moreText(all.length));
    }

    showBraking(all: Braking[]): void {
        const rows = all.slice(-MOST_SHOWN).map(one => this.linked(row(...brakingCells(one)), one.first_event));
        show("braking", all.length ? table(BRAKED.heads, rows) : BRAKED.none, moreText(all.length));
    }
}

function moreText(all: number): Child {
    return all > MOST_SHOWN && make("p", {}, BRAKED.more(count(MOST_SHOWN), count(all)));
}

/** A text whose last word, a unit, stays in the line of its number. */
function inLine(text: string): string { return text.replace(/ (\S+)$/, "\u00a0$1"); }

/** A pair as text, with its unit once: one number where both are the same, and ? for a bound that isn't known. */
function pairText([least, most]: Pair, text: (number: number) => string): string {
    if (least === null) return "?";
    if (most === null) return inLine(`${text(least)} to ?`);
    return inLine(least === most ? text(most) : `${text(least).replace(/ .*/, "")} to ${text(most)}`);
}

function rateText(rate: number): string { return `${(rate / 100).toFixed(2)} m/s²`; }

function comparedText(name: string, said: Promise): Child {
    return said &&
        make("div", { class: said === "broken" ? "bad"
                : said === "kept"              ? "good"
                                               : "" },
            `${name}: ${BRAKED.words[said]}`);
}

/** The cells of a brake command. */
function brakingCells(one: Braking): Child[] {
    const isSeen = one.answer !== "standing" && one.answer !== "too_few";
    const events = `${count(one.first_event)} to ${count(one.last_event)}`;
    const both = (ms: Pair, cm: Pair): Child =>
        isSeen && make("span", {}, pairText(ms, seconds), make("br"), pairText(cm, metres));
    const command =
        make("strong", { class: one.brake === "emergency" ? "bad" : "" }, brakeText(one.brake === "emergency" ? 2 : 1));
    const trip = one.trip_event !== null && `, ${BRAKED.trip(count(one.trip_event))}`;
    const { deceleration_cm_per_s2: b, reaction_ms: t, promised_cm: way } = one;
    const promised = b === null || t === null
        ? BRAKED.noTrain
        : inLine(`${rateText(b)} after ${seconds(t)}${way === null ? "" : `, ${metres(way)}`}`);
    return [
        events, make("span", {}, command, trip),
        one.speed_m_per_h === null ? "?" : inLine(`${kmh(one.speed_m_per_h)} km/h`),
        make("span", { class: one.answer === "not_slowed" ? "bad" : "" }, BRAKED.answers[one.answer]),
        both(one.begins_ms, one.begins_cm),
        isSeen && one.answer !== "not_slowed" && pairText(one.rate_cm_per_s2, rateText),
        make("span", {}, BRAKED.ends[one.until], isSeen && make("br"), both(one.ends_ms, one.way_cm)),
        isSeen && promised,
        (one.reaction ?? one.way) &&
            make("span", {}, comparedText("reaction", one.reaction), comparedText("rate", one.rate),
                comparedText("way", one.way))
    ];
}
