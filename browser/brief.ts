// What an image says, for who reads no further: the verdict, the last life, the last intervention with all its
// causes, the trips, which outputs left the unit, and of which this isn't known. As the report of `lab report` has it.
import {Records} from "./calls";
import {Child, make} from "./dom";
import {AskedImage} from "./image";
import {POWER_UP, Replay, Why} from "./layouts";
import {askedOf, lastOf} from "./lives";
import {
    brakeText,
    causeText,
    count,
    levelText,
    limitText,
    modeName,
    permittedText,
    placeText,
    seconds,
    speedText,
    tripCauseText
} from "./shown";
import {BRIEF, VERDICTS} from "./texts";
import {VERDICT} from "./wording";

const MOST_TRIPS = 12;

/** What is known of an image so far; what isn't yet is null or not there. */
type Known = Pick<AskedImage, "lives"|"speeds"|"interventions"|"trips"|"isWhole"|"verdict"|"newest"|"unwritten">& {
    records: Records;
    /** The causes that count, by the indexes of records; and of others why they don't. */
    causes: Map<number, Why|string>
};
/** A cause, its number in the brake table, and the event since which it holds. */
export type Since = [cause: number, event: number];

/** Why the causes of an event don't count: they are those of the journal only where the replay agrees. */
export function reasonOf(replays: Replay[], event: number): string|null {
    for (const { verdict, first, last, event: differs } of replays) {
        if (verdict === 2 && differs === event) return BRIEF.recordDiffers;
        if (verdict !== 2 && verdict !== 3 && first <= event && event <= last)
            return verdict === 1 ? null : VERDICTS[verdict] ?? "";
    }
    return BRIEF.noReplay;
}

/** The causes that count. */
export function counted(
    records: Records, replays: Replay[]|null, causes: Map<number, Why|null>): Map<number, Why|string> {
    const found = new Map<number, Why|string>();
    if (!replays) return found;
    for (const [index, why] of causes) {
        const reason = reasonOf(replays, records.event(index));
        const differs = why && why.brake !== records.brake(index) ? BRIEF.recordDiffers : null;
        found.set(index, reason ?? differs ?? why ?? BRIEF.noReplay);
    }
    return found;
}

/** All causes that hold at some records, each once, in the order in which they began; or why none of them is known. */
export function causesOf(whys: (Why|string|undefined)[]): Since[]|string {
    const found = new Map<string, Since>(), known = whys.filter((why): why is Why => typeof why === "object");
    for (const why of known)
        why.holds.forEach((holds, n) => {
            if (holds) found.set(`${n} ${why.since[n]}`, [n, why.since[n] ?? 0]);
        });
    if (!known.length) return whys.find((why): why is string => typeof why === "string") ?? BRIEF.notYet;
    return [...found.values()].sort((one, other) => one[1] - other[1] || one[0] - other[0]);
}

/** The texts of the causes that hold at some records; or why none of them is known. */
export function causeTextsOf(whys: (Why|string|undefined)[]): string[] {
    const found = causesOf(whys);
    return typeof found === "string" ? [BRIEF.causeNotKnown(found)] : found.map(([n, since]) => causeText(n, since));
}

/** Why the train was tripped. */
export function tripReason(why: Why|string|undefined): string {
    return typeof why === "object" ? tripCauseText(why) : BRIEF.causeNotKnown(why ?? BRIEF.notYet);
}

function link(event: number): HTMLElement { return make("a", { href: `#event=${event}` }, `event ${count(event)}`); }
function strong(text: string): HTMLElement { return make("strong", { class: "bad" }, text); }

function verdict({ verdict: said }: Known): Child[] {
    if (!said) return [BRIEF.notYet];
    return [said.length ? strong(`${said.join(". ")}.`) : `${VERDICT.none}.`];
}

/** Where and how fast the train was at a record. */
function at({ records, speeds }: Known, index: number): string {
    const place = placeText(records.front(index)), speed = speedText(speeds[index] ?? NaN);
    return `place ${place}, speed ${speed}, limit ${permittedText(records.limit(index))}, moment ${
        seconds(records.moment(index))}`;
}

/** The last intervention, with its causes, those of its trips, and what decided the limit. */
function intervention(known: Known): Child[] {
    const { records, interventions, causes } = known, one = lastOf(interventions);
    if (!one) return [BRIEF.noIntervention];
    const found = causeTextsOf(askedOf(records, one).map(index => causes.get(index)));
    const worst = one.steps.find(({ brake }) => brake === 2) ?? one.steps[0];
    const limit = causes.get(worst?.index ?? one.first);
    const trips = known.trips.filter(index => one.first <= index && index <= one.last);
    const texts = [
        ...found.map(text => make("li", {}, text)),
        ...trips.map(index => make("li", {}, "the train was tripped at ", link(records.event(index)), ": ",
                         tripReason(causes.get(index)))),
        typeof limit === "object" && make("li", {}, limitText(limit))
    ];
    const commands = one.steps.map(({ brake }) => brakeText(brake)).join(", then ");
    const events = `${count(records.event(one.first))} to ${count(records.event(one.last))}`;
    return [
        strong(commands), `, life ${records.life(one.first)}, events ${events}${one.goesOn ? ", and on" : ""}, from `,
        link(records.event(one.first)), `: ${at(known, one.first)}.`, make("ul", {}, ...texts)
    ];
}

function trips(known: Known): Child[] {
    const { records, trips: all, causes } = known, newest = [...all].reverse().slice(0, MOST_TRIPS);
    if (!all.length) return [BRIEF.none];
    const line = (index: number): HTMLElement => make("li", {}, `life ${records.life(index)}, `,
        link(records.event(index)), `, ${at(known, index)}: `, tripReason(causes.get(index)));
    const more = all.length - newest.length;
    return [make("ul", {}, ...newest.map(line), more > 0 && make("li", {}, BRIEF.earlier(more)))];
}

function lastLife({ records, lives, speeds }: Known): Child[] {
    const life = lives[lives.length - 1];
    if (!life) return [BRIEF.none];
    const end = records.get(life.end - 1), events = `${count(records.event(life.from))} to ${count(end.event)}`;
    return [
        `life ${life.number}, events ${events}; at its end ${modeName(end.mode)}, level ${levelText(end.level)}, `,
        `${brakeText(end.brake)}, place ${placeText(end.front)}, speed ${speedText(speeds[life.end - 1] ?? NaN)}, `,
        `moment ${seconds(end.moment)}`
    ];
}

/** Whether the outputs of the newest block left the unit. */
function released({ records, newest, unwritten, isWhole }: Known): Child[] {
    if (isWhole === null) return [BRIEF.notYet];
    if (!newest) return [strong(BRIEF.notKnown)];
    const { number, firstEvent, events, lives } = newest, only = records.find(firstEvent);
    const before = firstEvent > 0 ? records.find(firstEvent - 1) : null;
    const isLeft = before !== null && records.kind(before) !== POWER_UP && records.life(before) === lives;
    const isPowerUp = events - firstEvent === 1 && only !== null && records.kind(only) === POWER_UP;
    const says: Child[] = isPowerUp ? [BRIEF.powerUp(count(number))]
        : unwritten?.life === lives
        ? [BRIEF.released(count(number))]
        : [
              isLeft && BRIEF.left(lives, count(firstEvent - 1)), strong(BRIEF.outputsNotKnown),
              BRIEF.outputs(count(number), count(firstEvent), count(events - 1))
          ];
    return unwritten ? [
        ...says, ". ",
        strong(BRIEF.unwritten(count(unwritten.number), count(unwritten.firstEvent), count(unwritten.events - 1)))
    ]
                     : says;
}

/** The rows: what each is called, and what it says. */
export function briefRows(known: Known): [string, Child[]][] {
    const powerUps = known.interventions.filter(one => one.isPowerUp).length;
    if (!known.records.count) return [["Verdict", verdict(known)]];
    return [
        ["Verdict", verdict(known)],
        ["Last intervention", intervention(known)], ["Trips", trips(known)],
        ["Last life", lastLife(known)], ["Released", released(known)],
        ...(powerUps ? [["Power-ups", [BRIEF.powerUps(powerUps)]] as [string, Child[]]] : [])
    ];
}
