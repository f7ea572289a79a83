// The tracks: those that the page brings along, which tools/page writes into it with the fields of their telegrams, and
// those of one's own.
import {make} from "./dom";
import {Scenario} from "./life";
import {Decoded} from "./planning";
import {Grammar, Wrong} from "./grammar";
import {Telegrams} from "./telegrams";

export interface Track {
    name: string;
    text: string;
    scenario: Scenario;
    restart: Scenario|null
}
export interface Given {
    wasm: string;
    worker: string;
    tracks: Track[];
    decoded: Record<string, Decoded>;
    grammar: Grammar;
    commit: string;
    /** Version and commit of the module, and whether it is proved, as the module says it. */
    build: string
}
declare const GIVEN: Given;
export const given: Given = GIVEN;
export const tracks: Track[] = [...given.tracks];
export const telegrams = new Telegrams(given.grammar);

/** The fields of a telegram, for the drawing of what lies ahead; none of one that can't be read. */
function learn(digits: string): void {
    try {
        const { header, packets } = telegrams.read(digits);
        given.decoded[digits] = {
            header: Object.fromEntries(header.map(([name, number]) => [name, Number(number)])),
            packets: packets.map(
                ([[, packet] = ["", 0], ...fields]) =>
                    ({ packet: Number(packet), fields: fields.map(([name, number]) => [name, Number(number)]) }))
        };
    } catch (error) {
        if (!(error instanceof Wrong)) throw error;
    }
}

/** The telegrams of a scenario that the unit doesn't refuse have fields from here on. */
export function learnAll(scenario: Scenario, isRead: (digits: string) => boolean): void {
    const telegrams = scenario.steps.flatMap(step => "telegram" in step ? [step.telegram] : []);
    const all = [...scenario.groups.flatMap(group => group.balises), ...telegrams].map(digits => digits.toUpperCase());
    for (const digits of new Set(all))
        if (!(digits in given.decoded) && isRead(digits)) learn(digits);
}

/** Adds a track, or puts it in the place of the one of this name; answers its number. */
export function addTrack(track: Track): number {
    const found = tracks.findIndex((one, n) => n >= given.tracks.length && one.name === track.name);
    if (found < 0) return tracks.push(track) - 1;
    tracks[found] = track;
    return found;
}

/** Offers the tracks, one of them chosen. */
export function offerTracks(select: HTMLSelectElement, chosen: number): void {
    if (select.options.length !== tracks.length)
        select.replaceChildren(...tracks.map((track, n) => make("option", { value: n }, track.name)));
    select.value = String(chosen);
}
