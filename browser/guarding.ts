// The guard next to the unit of the desk (c/include/etcs_guard.h): the stop that a telegram demands and the unit skips.
// The desk only shows it, and its train obeys the unit.
import {Calls} from "./calls";
import {Heard} from "./course";
import {at, say} from "./dom";
import {Demand, Output} from "./layouts";
import {elements} from "./planning";
import {SAY, STOPS} from "./texts";
import {given} from "./tracks";

const NOMINAL = 1, REVERSE = 0, NOT_KNOWN = 2, OVERRIDDEN = 16, SERVICE_BRAKE = 2;
/** The place of the brake that a guard holds. */
const HELD = 1;

/** A variable of a telegram's header. */
function headerOf(telegram: string, name: string): number|undefined {
    return given.decoded[telegram.toUpperCase()]?.header[name];
}

/** The direction in which packet 5 announced the group of a telegram. */
function announcedOf(telegram: string, heard: Heard[]): number {
    const packets = heard.flatMap(one => given.decoded[one.telegram.toUpperCase()]?.packets ?? []);
    const linking = packets.filter(one => one.packet === 5).pop();
    const link = linking && elements(linking, "D_LINK").find(one => one["NID_BG"] === headerOf(telegram, "NID_BG"));
    return link?.["Q_LINKORIENTATION"] ?? NOT_KNOWN;
}

/** The direction in which a train that runs forward passes the balises of a group. */
function directionOf(group: string[], heard: Heard[]): number {
    const [first = "", second] = group;
    if (second === undefined) return announcedOf(first, heard);
    return (headerOf(first, "N_PIG") ?? 0) < (headerOf(second, "N_PIG") ?? 0) ? NOMINAL : REVERSE;
}

export class Guard {
    private readonly guard: Uint32Array;
    private first: Demand|null = null;

    constructor(private readonly calls: Calls) { this.guard = calls.newGuard(); }

    /** Hears a telegram before the unit gets it, with the telegrams of its group as the train passes them. */
    hear(telegram: string, group: string[], heard: Heard[], { mode, indications }: Output): void {
        const situation = [mode, directionOf(group, heard), indications & OVERRIDDEN ? 1 : 0];
        const stops = this.calls.hear(this.guard, telegram, situation).filter(one => one.demanded <= SERVICE_BRAKE);
        this.first = this.first ?? stops[0] ?? null;
    }

    /** The driver acknowledges at this speed. */
    acknowledge(speed: number): void {
        this.calls.acknowledge(this.guard, speed);
        if (!this.guard[HELD]) this.first = null;
    }

    /** The demand for which the guard brakes; null where it doesn't. */
    get stop(): Demand|null { return this.first; }
}

/** Shows the lamp of a guard that brakes; `press` is called where it is pressed. */
export function showStop(guard: Guard|null, press: () => void): void {
    const stop = guard?.stop;
    at("guard").hidden = !stop;
    at("guard").onclick = press;
    if (stop) say("guard", SAY.demandsStop(STOPS[stop.finding] ?? ""));
}
