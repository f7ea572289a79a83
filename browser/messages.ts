// What the page and its worker say to each other.
import {Braking} from "./braking";
import {Block, Facts, Replay, Slot, Why} from "./layouts";
import {Intervention, LifeRange} from "./lives";
import {Signals} from "./signals";

/** Reads an image, and forgets the one before. */
export interface ImageOrder {
    kind: "image";
    id: number;
    file: Blob;
    /** The slots that are taken for those of the first sector; null where the first sector is read. */
    slots: number|null;
    /** How many bytes are read; null where all are. */
    first: number|null
}
/**
 * The module, before all other orders; an image; why an event of the image that was read was answered so; and the same
 * of an image that comes along.
 */
export type Order = { kind: "module"; module: WebAssembly.Module }|ImageOrder|
    { kind: "why"; id: number; block: number; event: number }|
    { kind: "once"; id: number; bytes: ArrayBuffer; block: number; event: number };

export interface WhyReport {
    kind: "why";
    id: number;
    event: number;
    block: number;
    status: number;
    why: Why|null
}
/** What comes of the records of an image. */
export interface RecordsReport {
    kind: "records";
    id: number;
    status: number;
    bytes: ArrayBuffer;
    unreadable: number[];
    lives: LifeRange[];
    speeds: Float64Array;
    signals: Signals;
    interventions: Intervention[];
    trips: number[];
    braking: Braking[]
}
export interface SlotsReport {
    kind: "slots";
    id: number;
    slots: Slot[];
    newest: Block|null;
    unwritten: Unwritten|null;
    heads: Head[];
    isWhole: boolean
}
/** The digest of the bytes is taken before anything reads them. */
export type Report = { kind: "bytes"; id: number; bytes: ArrayBuffer; digest: string }|
    { kind: "facts"; id: number; status: number; facts: Facts|null }|RecordsReport|SlotsReport|
    { kind: "replay"; id: number; lives: Replay[]; unreadable: number[]; status: number }|
    { kind: "causes"; id: number; causes: [number, Why|null][] }|WhyReport|
    { kind: "progress"; id: number; what: string; done: number; all: number }|{ kind: "done"; id: number }|
    { kind: "failed"; id: number; says: string };

/** The block after the newest, which was being written: its number, life and events. */
export interface Unwritten {
    number: number;
    life: number;
    firstEvent: number;
    events: number
}

/** What of the head of a block is asked for all of them: whether one follows the other. */
export type Head = Pick<Block, "number"|"firstEvent"|"events"|"lives"|"records">;
