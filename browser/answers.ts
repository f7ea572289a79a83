// What is said of an image, of its slots, lives and interventions.
import {Records} from "./calls";
import {Child, make} from "./dom";
import {AskedImage} from "./image";
import {JournalRecord, Replay, SECTOR, Slot, Why} from "./layouts";
import {Intervention} from "./lives";
import {causeTextsOf, tripReason} from "./brief";
import {Head} from "./messages";
import {brakeText, count, frontText, indicationTexts, levelText} from "./shown";
import {modeName, modeWord, permittedText, placeText, seconds, speedText} from "./shown";
import {KEPT_FIELDS, RECORD_FIELDS, SAY, SLOTS, VERDICTS} from "./texts";

/** How many bytes an image has, and which of them aren't read. */
function bytesText({ bytes: { length }, bytesRead }: AskedImage): string {
    const rest = length % SECTOR;
    if (bytesRead < length) return `${count(length)}, of which the first ${count(bytesRead)} are read`;
    return rest ? `${count(length)}, of which ${rest} stand after the last whole sector` : count(length);
}

/** What an image is. */
export function imageTexts(image: AskedImage): [string, string][] {
    const { name, digest, facts, records, lives, unreadable, isBySlots: isAssumed } = image;
    if (!facts) return [];
    const rows: [string, string][] = [
        ["file", name], ["SHA-256", digest], ["bytes", bytesText(image)],
        ["sectors", count(facts.sectors)],
        ["slots", `${count(facts.slots)}, ${count(facts.whole)} whole${isAssumed ? `; ${SAY.assumed}` : ""}`],
        ["newest block", facts.newest ? count(facts.newest) : "none"]
    ];
    if (records?.count) {
        rows.push([
            "events",
            `${count(records.event(0))} to ${count(records.event(records.count - 1))}, ${
                count(records.count)} can be read`
        ]);
        rows.push(["lives", count(lives.length)]);
    }
    if (unreadable.length)
        rows.push(["can't be read", `block${unreadable.length > 1 ? "s" : ""} ${unreadable.slice(0, 20).join(", ")}`]);
    return rows;
}

/** What a slot holds, with the place of the first field that isn't one. */
export function slotText(slot: Slot, number: number, head: Head|undefined): string {
    const first = SECTOR * (1 + 6 * number), [name, says] = SLOTS[slot.state] ?? ["", ""];
    let text = `Slot ${count(number)}, from byte ${count(first)} on: ${name}${
        slot.number ? ` ${count(slot.number)}` : ""}; ${says}.`;
    if (head && slot.state === 1) text += ` Events ${count(head.firstEvent)} to ${count(head.events - 1)}.`;
    if (slot.hasFault) {
        const where = slot.faultRecord ? `in record ${slot.faultRecord}` : "in the head";
        text += ` The first field that isn't one is at byte ${count(first + SECTOR + slot.faultAt)}, ${where}.`;
    }
    return slot.state === 1 && !slot.isSound ? text + " Its gate isn't its own." : text;
}

function answerText(record: JournalRecord): string {
    return `${modeWord(record.mode)}, level ${levelText(record.level)}, ${brakeText(record.brake)}, indications ${
               record.indications}, ` +
        `place ${frontText(record)}, limit ${permittedText(record.limit)}, ${seconds(record.moment)}`;
}

/** What events of a life that was run again came to, or a head. */
function verdictText(life: Replay): string {
    const says = VERDICTS[life.verdict] ?? "";
    if (life.verdict === 2) {
        return `${says}: event ${count(life.event)} in ${RECORD_FIELDS[life.field]}. The journal has ${
                   answerText(life.journal)}. ` +
            `The kernel answers ${answerText(life.kernel)}.`;
    }
    return life.verdict === 3 ? `${says}: block ${count(life.block)} in ${KEPT_FIELDS[life.field]}` : says;
}

/** Whether the replay of some life differs. */
function differs(lives: Replay[]): boolean { return lives.some(({ verdict }) => verdict === 2 || verdict === 3); }

/** What the slots say, and its kind: good only where the replay doesn't differ. */
export function slotsVerdict({ heads, isWhole, replays }: AskedImage): [string, string] {
    if (isWhole === null) return ["", ""];
    if (isWhole) return differs(replays ?? []) ? [SAY.wholeButDiffers, "bad"] : [SAY.whole, "good"];
    const lost = lostTexts([...heads.values()]).slice(0, 20);
    return [SAY.notWhole + (lost.length ? ` Lost: ${lost.join("; ")}.` : ""), "bad"];
}

/** What the replay of all lives came to. */
export function replayText(lives: Replay[], unreadable: number[]): string {
    const agrees = lives.some(life => life.verdict === 1);
    const says = [differs(lives) ? SAY.differs : agrees ? SAY.agrees : ""];
    if (unreadable.length) says.push(`Can't be read: block ${unreadable.join(", ")}.`);
    return [...says, agrees ? SAY.authentic : ""].filter(text => text).join(" ");
}

/** The cells of a line of a replay. */
export function lifeCells(life: Replay, word: string): Child[] {
    const isBad = life.verdict === 2 || life.verdict === 3, kind = life.verdict === 1 ? "good" : isBad ? "bad" : "";
    return [
        count(life.life), life.verdict === 3 ? "" : `${count(life.first)} to ${count(life.last)}`, word,
        make("span", { class: kind }, verdictText(life))
    ];
}

/** The cells of an intervention; its causes come later. */
export function interventionTexts(
    records: Records, one: Intervention, speed: number, trips: number[], causes: Map<number, Why|string>): Child[] {
    const tripped = trips.filter(index => one.first <= index && index <= one.last);
    const asked = [...new Set([...one.steps.map(({ index }) => index), ...tripped])];
    const says = causeTextsOf(asked.map(index => causes.get(index)));
    for (const index of tripped)
        says.push(`tripped at event ${count(records.event(index))}: ${tripReason(causes.get(index))}`);
    const isWorst = one.steps.some(({ brake }) => brake === 2);
    return [
        `${count(records.event(one.first))} to ${count(records.event(one.last))}`, placeText(records.front(one.first)),
        seconds(records.moment(one.first)), speedText(speed), permittedText(records.limit(one.first)),
        make("strong", { class: isWorst ? "bad" : "" }, one.steps.map(({ brake }) => brakeText(brake)).join(", then ")),
        make("ul", {}, ...says.map(text => make("li", {}, text)))
    ];
}

/** What holds after the event of a record. */
export function outcomeText(record: JournalRecord): string {
    const answer = `${modeName(record.mode)}, level ${levelText(record.level)}, ${brakeText(record.brake)}`;
    const shown = indicationTexts(record.indications).join(", ") || "nothing";
    return `After it: ${answer}; limit ${permittedText(record.limit)}, front ${frontText(record)}; ` +
        `moment ${seconds(record.moment)}; shown: ${shown}.`;
}

/** The blocks that are missing between two that are there, with their events. */
function lostTexts(heads: Head[]): string[] {
    const sorted = [...heads].sort((one, other) => one.number - other.number);
    return sorted.flatMap((head, n) => {
        const before = sorted[n - 1];
        if (!before || head.number <= before.number + 1) return [];
        const blocks = rangeText("block", before.number + 1, head.number - 1);
        return [head.firstEvent > before.events
                ? `${blocks} with ${rangeText("event", before.events, head.firstEvent - 1)}`
                : blocks];
    });
}

function rangeText(word: string, first: number, last: number): string {
    return first === last ? `${word} ${count(first)}` : `${word}s ${count(first)} to ${count(last)}`;
}
