// Reads an image apart from the page, so that the page never waits: facts, records, slots, replays and causes, in this
// order.
import {brakingOf} from "./braking";
import {AT_ONCE, Calls, END, Held, OK, Records} from "./calls";
import {hexOf} from "./hex";
import {Block, BYTES, Facts, Replay, SECTOR, Slot, Why} from "./layouts";
import {askedOf, Intervention, interventionsOf, lastOf, livesOf, speedsOf, tripsOf} from "./lives";
import {Head, ImageOrder, Order, Report, Unwritten} from "./messages";
import {signalsOf} from "./signals";
import {SAY} from "./texts";
import {isWhole} from "./whole";

const send = (report: Report, transfer: Transferable[] = []): void =>
    (postMessage as (message: Report, transfer: Transferable[]) => void)(report, transfer);
const EACH_MS = 50, UNWRITTEN = 5, VERSION = 2;
const channel = new MessageChannel();
let calls: Promise<Calls>|null = null;
/** The image that is asked for, and the one that the memory holds. */
let wanted = 0, held: Held&{ id: number }|null = null;
/** Images are read one after the other. */
let reading: Promise<void> = Promise.resolve();

interface Read {
    records: Records;
    status: number;
    interventions: Intervention[];
    trips: number[]
}

/** Lets other orders in. */
function pause(): Promise<void> {
    return new Promise(resolve => {
        channel.port1.onmessage = () => resolve();
        channel.port2.postMessage(null);
    });
}

/** Works in pieces, each of so many, and says what is done, as long as the image is asked for. */
async function pieces(
    id: number, what: string, all: number, work: (done: number) => boolean, each = 1): Promise<boolean> {
    let begun = Date.now();
    send({ kind: "progress", id, what, done: 0, all });
    await pause();
    for (let done = 0; wanted === id && work(done); done++) {
        if (Date.now() - begun < EACH_MS) continue;
        send({ kind: "progress", id, what, done: each * done, all });
        await pause();
        begun = Date.now();
    }
    return wanted === id;
}

async function readRecords(calls: Calls, id: number, held: Held): Promise<Read|null> {
    const journal = calls.journal(held), unreadable: number[] = [];
    let room = new Uint8Array(BYTES.record * 1024), count = 0, status = journal.status;
    const isRead = status !== OK || await pieces(id, "events", 0, () => {
        const answer = journal.nextOnes();
        if (room.length < BYTES.record * count + answer.bytes.length) {
            const more = new Uint8Array(2 * room.length);
            more.set(room);
            room = more;
        }
        room.set(answer.bytes, BYTES.record * count);
        count += answer.bytes.length / BYTES.record;
        status = answer.status;
        if (status === OK) return true;
        if (status !== END && journal.block() !== answer.block) {
            unreadable.push(answer.block);
            return true;
        }
        return false;
    }, AT_ONCE);
    journal.drop();
    if (!isRead) return null;
    const own = room.subarray(0, BYTES.record * count), bytes = own.slice(), records = new Records(own);
    const lives = livesOf(records), speeds = speedsOf(records, lives), interventions = interventionsOf(records, lives);
    const trips = tripsOf(records, lives), signals = signalsOf(records, speeds);
    const found = { unreadable, lives, speeds, signals, interventions, trips, braking: brakingOf(records) };
    send({ kind: "records", id, status, bytes: bytes.buffer, ...found }, [bytes.buffer]);
    return { records, status, interventions, trips };
}

async function readSlots(calls: Calls, id: number, held: Held, facts: Facts, read: Read): Promise<boolean> {
    const { whole, newest } = facts, slots: Slot[] = [], heads: Head[] = [];
    if (!await pieces(id, "slots", whole, done => {
            if (done >= whole) return false;
            const { value } = calls.slot(held, newest, done);
            if (value) slots.push(value);
            if (value?.state === 1) {
                const head = calls.block(held, value.number).value;
                if (head) {
                    const { number, firstEvent, events, lives, records } = head;
                    heads.push({ number, firstEvent, events, lives, records });
                }
            }
            return true;
        }))
        return false;
    const block: Block|null = newest ? calls.block(held, newest).value : null;
    const all = isWhole(facts, slots, heads, read.records, read.status);
    send({
        kind: "slots",
        id,
        slots,
        newest: block,
        unwritten: unwrittenOf(calls, held, slots, block),
        heads,
        isWhole: all
    });
    return true;
}

/** The block after the newest that a slot holds unwritten, by the fields of its head (docs/reference/format.md). */
function unwrittenOf(calls: Calls, held: Held, slots: Slot[], newest: Block|null): Unwritten|null {
    const slot = slots.findIndex(one => one.state === UNWRITTEN && newest !== null && one.number === newest.number + 1);
    if (slot < 0 || !newest) return null;
    const bytes = calls.bytesOf({ at: held.at + BigInt(SECTOR * (2 + 6 * slot)), size: SECTOR });
    const head = new DataView(bytes.buffer);
    return {
        number: newest.number + 1,
        life: head.getUint32(24),
        firstEvent: newest.events,
        events: Number(head.getBigUint64(16))
    };
}

async function replay(calls: Calls, id: number, held: Held): Promise<boolean> {
    const journal = calls.journal(held), lives: Replay[] = [], unreadable: number[] = [];
    let status = journal.status;
    const isDone = status !== OK || await pieces(id, "lives run again", 0, () => {
        const block = journal.block(), answer = journal.replay();
        status = answer.status;
        if (answer.value) lives.push(answer.value);
        else if (status !== END && journal.block() !== block) unreadable.push(journal.block() - 1);
        else return false;
        return true;
    });
    journal.drop();
    if (isDone) send({ kind: "replay", id, lives, unreadable, status });
    return isDone;
}

/** The causes of the last intervention, and then where each command began and where the train was tripped. */
async function causes(calls: Calls, id: number, held: Held, { records, interventions, trips }: Read): Promise<boolean> {
    let found: [number, Why|null][] = [];
    const last = lastOf(interventions), steps = interventions.flatMap(one => one.steps.map(({ index }) => index));
    const list = [...new Set([...last ? askedOf(records, last) : [], ...[...trips, ...steps].sort((a, b) => b - a)])];
    const isDone = await pieces(id, "causes", list.length, done => {
        const index = list[done];
        if (index === undefined) return false;
        found.push([index, calls.why(held, records.block(index), records.event(index)).value]);
        if (found.length >= 20) {
            send({ kind: "causes", id, causes: found });
            found = [];
        }
        return true;
    });
    send({ kind: "causes", id, causes: found });
    return isDone;
}

/** A copy of an image whose first sector says so many slots (docs/reference/format.md). */
function withSlots(bytes: Uint8Array, slots: number): Uint8Array {
    const copy = bytes.slice(), view = new DataView(copy.buffer);
    copy.fill(0, 0, SECTOR);
    copy.set(new TextEncoder().encode("ETCSJRU1"));
    view.setUint32(8, VERSION);
    view.setUint32(12, slots);
    return copy;
}

async function read(calls: Calls, { id, file, slots, first }: ImageOrder): Promise<void> {
    if (held) calls.drop(held);
    held = null;
    const bytes = new Uint8Array(await file.arrayBuffer());
    const digest = hexOf(new Uint8Array(await crypto.subtle.digest("SHA-256", bytes)));
    if (wanted !== id) return;
    const begin = bytes.subarray(0, first ?? bytes.length);
    const one = calls.hold(slots === null ? begin : withSlots(begin, slots));
    held = {...one, id };
    send({ kind: "bytes", id, bytes: bytes.buffer, digest }, [bytes.buffer]);
    const { status, value } = calls.facts(one);
    send({ kind: "facts", id, status, facts: value });
    if (value) {
        const found = await readRecords(calls, id, one);
        if (!found || !await readSlots(calls, id, one, value, found) || !await replay(calls, id, one) ||
            !await causes(calls, id, one, found))
            return;
    }
    send({ kind: "done", id });
}

async function obey(order: Order): Promise<void> {
    if (order.kind === "module") {
        calls = WebAssembly.instantiate(order.module, {}).then(instance => Calls.of(instance));
        return;
    }
    if (!calls) throw new Error("there is no module yet");
    const ready = await calls;
    if (order.kind === "image") await read(ready, order);
    else {
        const one = order.kind === "once" ? ready.hold(new Uint8Array(order.bytes)) : held;
        if (!one || order.kind === "why" && held?.id !== order.id) return;
        const { status, value } = ready.why(one, order.block, order.event);
        send({ kind: "why", id: order.id, event: order.event, block: order.block, status, why: value });
        if (order.kind === "once") ready.drop(one);
    }
}

onmessage = (event: MessageEvent<Order>) => {
    const order = event.data;
    const obeyed = (): Promise<void> => obey(order).catch((error: unknown) => send({
        kind: "failed",
        id: order.kind === "module" ? 0 : order.id,
        says: error instanceof DOMException ? SAY.unreadableFile : String(error)
    }));
    if (order.kind === "image") {
        wanted = order.id;
        reading = reading.then(obeyed);
    } else void obeyed();
};
