// An image that is asked: what the worker reports of it.
import {Braking} from "./braking";
import {counted} from "./brief";
import {OK, Records} from "./calls";
import {Block, Facts, Replay, Slot, Why} from "./layouts";
import {Intervention, LifeRange} from "./lives";
import {Head, Report, Unwritten, WhyReport} from "./messages";
import {Signals} from "./signals";
import {verdictOf} from "./verdict";

/** What is handed over. The name is as it is shown: characters that can't be seen are spelled. */
export interface Given {
    name: string;
    file: Blob;
    /** The slots that are taken for those of the first sector; null where the first sector is read. */
    slots: number|null;
    /** How many bytes are read, the first ones; null where all are. */
    first: number|null
}

export class AskedImage {
    bytes = new Uint8Array();
    digest = "";
    facts: Facts|null = null;
    records: Records|null = null;
    lives: LifeRange[] = [];
    speeds = new Float64Array();
    signals: Signals|null = null;
    interventions: Intervention[] = [];
    trips: number[] = [];
    braking: Braking[] = [];
    unwritten: Unwritten|null = null;
    slots: Slot[] = [];
    readonly heads = new Map<number, Head>();
    newest: Block|null = null;
    unreadable: number[] = [];
    status = OK;
    readonly causes = new Map<number, Why|null>();
    replays: Replay[]|null = null;
    /** The answers about single events. */
    readonly whys = new Map<number, WhyReport>();
    isWhole: boolean|null = null;
    isDone = false;
    /** The record that is chosen. */
    index = 0;

    constructor(readonly id: number, readonly given: Given) {}

    get name(): string { return this.given.name; }
    get isBySlots(): boolean { return this.given.slots !== null; }
    /** How many of its bytes are read. */
    get bytesRead(): number { return Math.min(this.bytes.length, this.given.first ?? Infinity); }

    /** Takes what the worker reports. */
    hear(report: Report): void {
        switch (report.kind) {
        case "bytes":
            this.bytes = new Uint8Array(report.bytes);
            this.digest = report.digest;
            break;
        case "facts": this.facts = report.facts; break;
        case "records":
            this.status = report.status;
            this.records = new Records(new Uint8Array(report.bytes));
            for (const name of ["unreadable", "lives", "speeds", "signals", "interventions", "trips", "braking"] as const)
                Object.assign(this, { [name]: report[name] });
            break;
        case "slots":
            for (const name of ["slots", "newest", "unwritten"] as const)
                Object.assign(this, { [name]: report[name] });
            for (const head of report.heads) this.heads.set(head.number, head);
            this.isWhole = report.isWhole && !this.isBySlots && this.bytesRead === this.bytes.length;
            break;
        case "replay": this.replays = report.lives; break;
        case "causes":
            for (const [index, why] of report.causes) this.causes.set(index, why);
            break;
        case "why": this.whys.set(report.event, report); break;
        case "done": this.isDone = true;
        }
    }

    /** The causes that count. */
    get counted(): Map<number, Why|string> {
        return this.records ? counted(this.records, this.replays, this.causes) : new Map<number, Why|string>();
    }

    /** The sentences of the verdict, none where nothing is found; null as long as they aren't known. */
    get verdict(): string[]|null {
        const { status, isWhole, replays } = this;
        return isWhole === null || !replays ? null : verdictOf(status, isWhole, replays);
    }

    /** What tests read. */
    get findings(): object {
        const { records, slots, status, unreadable, replays: lives, digest, interventions, trips, facts } = this;
        const { unwritten, newest, isWhole, braking, verdict, causes } = this;
        return {
            ...{ facts, slots, status, unreadable, lives, digest, interventions, trips, unwritten, newest, isWhole },
            ...{ braking, verdict },
            causes: [...causes],
            count: records?.count ?? 0,
            counted: records && [...this.counted],
            events: [...causes.keys()].map(index => records?.event(index))
        };
    }
}
