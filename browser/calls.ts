// The calls of c/include/etcs_unit.h, etcs_image.h and etcs_guard.h, of the library for WebAssembly. Nothing here knows a
// rule of the unit: it puts bytes into the memory, calls, and reads what was written there. An address is a BigInt.
import {bytesOfHex} from "./hex";
import {Block, BYTES, Demand, Facts, JournalRecord, Output, Reader} from "./layouts";
import {Replay, Request, SECTOR, Slot, State, TrainData, Why} from "./layouts";

export const OK = 0, END = 38, DAMAGED = 32, NO_SUCH_REQUEST = 249;
/** How many records of a journal come at once. */
export const AT_ONCE = 256;
const OUTPUTS = 8, STRICT = 1;
/** The number of the interface: tools/page puts in that of c/include/etcs_unit.h. */
declare const ABI: number;

interface Exports {
    memory: WebAssembly.Memory;
    etcs_memory_take(bytes: bigint): bigint;
    etcs_memory_give(at: bigint): void;
    etcs_abi(): number;
    etcs_decode(bytes: bigint, len: bigint): number;
    etcs_packet_count(bytes: bigint, len: bigint): number;
    etcs_version_(out: bigint, room: bigint, len: bigint): number;
    etcs_unit_open(unit: bigint, image: bigint, size: bigint, cold: number): number;
    etcs_unit_provide_(unit: bigint, sector: bigint, bytes: bigint, size: bigint): number;
    etcs_unit_telegram_(unit: bigint, bytes: bigint, len: bigint): number;
    etcs_unit_odometer_(unit: bigint, movement: bigint, speed: number): number;
    etcs_unit_clock_(unit: bigint, moment: bigint): number;
    etcs_unit_action_(unit: bigint, action: number): number;
    etcs_unit_identity_(unit: bigint, bytes: bigint, len: bigint): number;
    etcs_unit_running_number_(unit: bigint, number: number): number;
    etcs_unit_train_data_(unit: bigint, data: bigint): number;
    etcs_unit_prepare_(unit: bigint): number;
    etcs_unit_request_(unit: bigint, request: bigint, bytes: bigint, room: bigint): number;
    etcs_unit_done_(unit: bigint): number;
    etcs_unit_release_(unit: bigint, outputs: bigint, room: bigint, count: bigint): number;
    etcs_unit_state_(unit: bigint, state: bigint): number;
    etcs_unit_close_(unit: bigint): number;
    etcs_unit_format_request_(slots: number, index: number, request: bigint, bytes: bigint, room: bigint): number;
    etcs_image_facts_(image: bigint, size: bigint, abi: number, facts: bigint): number;
    etcs_image_slot_(image: bigint, size: bigint, abi: number, newest: bigint, slot: bigint, out: bigint): number;
    etcs_image_block_(image: bigint, size: bigint, abi: number, number: bigint, block: bigint): number;
    etcs_journal_open_(image: bigint, size: bigint, abi: number, journal: bigint): number;
    etcs_journal_next_(image: bigint, size: bigint, journal: bigint, record: bigint): number;
    etcs_image_replay_(image: bigint, size: bigint, abi: number, journal: bigint, replay: bigint): number;
    etcs_image_why_(image: bigint, size: bigint, abi: number, number: bigint, event: bigint, why: bigint): number;
    etcs_guard_begin_(guard: bigint, policy: number): number;
    etcs_guard_hear_(guard: bigint, bytes: bigint, len: bigint, situation: bigint, count: bigint): number;
    etcs_guard_demand_(bytes: bigint, len: bigint, situation: bigint, index: number, demand: bigint): number;
    etcs_guard_acknowledge_(guard: bigint, speed: number): number;
}

/** The answer of a call: its status, and where that is OK its value. */
export interface Answer<T> {
    status: number;
    value: T|null
}

/** Bytes that lie in the memory of the calls. */
export interface Held {
    at: bigint;
    size: number
}

export class Calls {
    private readonly out: bigint;
    private readonly room: bigint;

    constructor(private readonly x: Exports) {
        if (x.etcs_abi() !== ABI) throw new Error("the library is of another interface");
        this.out = this.take(BYTES.replay);
        this.room = this.take(BYTES.room);
    }

    static of(instance: WebAssembly.Instance): Calls { return new Calls(instance.exports as unknown as Exports); }

    private memory(): Uint8Array { return new Uint8Array(this.x.memory.buffer); }
    private reader(): Reader { return new Reader(new DataView(this.x.memory.buffer)); }

    private take(bytes: number): bigint {
        const at = this.x.etcs_memory_take(BigInt(Math.max(1, bytes)));
        if (at === 0n) throw new Error("there is no memory");
        return at;
    }

    /** Puts bytes into the memory, until they are dropped. */
    hold(bytes: Uint8Array): Held {
        const at = this.take(bytes.length);
        this.memory().set(bytes, Number(at));
        return { at, size: bytes.length };
    }

    drop(held: Held): void { this.x.etcs_memory_give(held.at); }
    bytesOf(held: Held): Uint8Array { return this.memory().slice(Number(held.at), Number(held.at) + held.size); }
    put(held: Held, from: number, bytes: Uint8Array): void { this.memory().set(bytes, Number(held.at) + from); }

    private with<T>(bytes: Uint8Array, use: (held: Held) => T): T {
        const held = this.hold(bytes);
        try {
            return use(held);
        } finally { this.drop(held); }
    }

    private answer<T>(status: number, read: (reader: Reader, at: number) => T): Answer<T> {
        return { status, value: status === OK ? read(this.reader(), Number(this.out)) : null };
    }

    version(): string {
        const status = this.x.etcs_version_(this.room, BigInt(BYTES.room), this.out);
        const count = this.reader().u32(Number(this.out));
        return status === OK ? new TextDecoder().decode(this.reader().bytes(Number(this.room), count)) : "?";
    }

    /** The number of the fault of a telegram, 0 where it has none, and how many packets it has. */
    decode(bytes: Uint8Array): [number, number] {
        return this.with(bytes,
            held => [this.x.etcs_decode(held.at, BigInt(held.size)),
                this.x.etcs_packet_count(held.at, BigInt(held.size))]);
    }

    // ---- an image

    facts(image: Held): Answer<Facts> {
        return this.answer(
            this.x.etcs_image_facts_(image.at, BigInt(image.size), ABI, this.out), (r, at) => r.facts(at));
    }

    slot(image: Held, newest: number, slot: number): Answer<Slot> {
        return this.answer(
            this.x.etcs_image_slot_(image.at, BigInt(image.size), ABI, BigInt(newest), BigInt(slot), this.out),
            (r, at) => r.slot(at));
    }

    block(image: Held, number: number): Answer<Block> {
        return this.answer(this.x.etcs_image_block_(image.at, BigInt(image.size), ABI, BigInt(number), this.out),
            (r, at) => r.block(at));
    }

    why(image: Held, block: number, event: number): Answer<Why> {
        return this.answer(
            this.x.etcs_image_why_(image.at, BigInt(image.size), ABI, BigInt(block), BigInt(event), this.out),
            (r, at) => r.why(at));
    }

    journal(image: Held): Journal {
        return new Journal(this.x, image, this.take(BYTES.journal), this.take(BYTES.record * AT_ONCE));
    }

    // ---- formatting, and a unit

    formatRequest(slots: number, index: number): Answer<{ request: Request; bytes: Uint8Array }> {
        const status = this.x.etcs_unit_format_request_(slots, index, this.out, this.room, BigInt(BYTES.room));
        return this.answer(status, (r, at) => this.asked(r, at));
    }

    private asked(reader: Reader, at: number): { request: Request; bytes: Uint8Array } {
        const request = reader.request(at);
        return {
            request,
            bytes: request.isWrite ? reader.bytes(Number(this.room), SECTOR * request.sectors) : new Uint8Array()
        };
    }

    newUnit(): bigint {
        const unit = this.take(BYTES.unit);
        this.memory().fill(0, Number(unit), Number(unit) + BYTES.unit);
        return unit;
    }

    freeUnit(unit: bigint): void { this.x.etcs_memory_give(unit); }
    open(unit: bigint, image: Held, cold: number): number {
        return this.x.etcs_unit_open(unit, image.at, BigInt(image.size), cold);
    }
    provide(unit: bigint, sector: number, medium: Held): number {
        const at = medium.at + BigInt(SECTOR * sector);
        return this.x.etcs_unit_provide_(unit, BigInt(sector), at, BigInt(SECTOR));
    }
    close(unit: bigint): number { return this.x.etcs_unit_close_(unit); }
    telegram(unit: bigint, bytes: Uint8Array): number {
        return this.with(bytes, held => this.x.etcs_unit_telegram_(unit, held.at, BigInt(held.size)));
    }
    odometer(unit: bigint, movement: number, speed: number): number {
        return this.x.etcs_unit_odometer_(unit, BigInt(movement), speed);
    }
    clock(unit: bigint, moment: number): number { return this.x.etcs_unit_clock_(unit, BigInt(moment)); }
    action(unit: bigint, action: number): number { return this.x.etcs_unit_action_(unit, action); }
    identity(unit: bigint, text: string): number {
        return this.with(
            new TextEncoder().encode(text), held => this.x.etcs_unit_identity_(unit, held.at, BigInt(held.size)));
    }
    runningNumber(unit: bigint, number: number): number { return this.x.etcs_unit_running_number_(unit, number); }
    trainData(unit: bigint, data: TrainData): number {
        const view = new DataView(new ArrayBuffer(BYTES.train));
        [data.length, data.maximum, data.deceleration, data.reaction, data.category].forEach(
            (number, n) => view.setUint32(4 * n, number, true));
        return this.with(new Uint8Array(view.buffer), held => this.x.etcs_unit_train_data_(unit, held.at));
    }
    prepare(unit: bigint): number { return this.x.etcs_unit_prepare_(unit); }
    request(unit: bigint): Answer<{ request: Request; bytes: Uint8Array }> {
        const status = this.x.etcs_unit_request_(unit, this.out, this.room, BigInt(BYTES.room));
        return this.answer(status, (r, at) => this.asked(r, at));
    }
    done(unit: bigint): number { return this.x.etcs_unit_done_(unit); }
    state(unit: bigint): Answer<State> {
        return this.answer(this.x.etcs_unit_state_(unit, this.out), (r, at) => r.state(at));
    }
    release(unit: bigint): Answer<Output[]> {
        const count = this.out + BigInt(BYTES.output * OUTPUTS);
        const status = this.x.etcs_unit_release_(unit, this.out, BigInt(OUTPUTS), count);
        return this.answer(
            status, (r, at) => Array.from({ length: r.u32(Number(count)) }, (_, n) => r.output(at + BYTES.output * n)));
    }

    // ---- a guard

    /** Calls with a guard, whose numbers it may change. */
    private guarding<T>(guard: Uint32Array, use: (at: bigint) => T): T {
        return this.with(new Uint8Array(guard.buffer), held => {
            const answer = use(held.at);
            guard.set(new Uint32Array(this.bytesOf(held).buffer));
            return answer;
        });
    }

    /** The numbers of a guard after a power-up: its policy (strict), the brake that it holds, whether it has heard. */
    newGuard(): Uint32Array {
        const guard = new Uint32Array(3);
        this.guarding(guard, at => this.x.etcs_guard_begin_(at, STRICT));
        return guard;
    }

    acknowledge(guard: Uint32Array, speed: number): void {
        this.guarding(guard, at => this.x.etcs_guard_acknowledge_(at, speed));
    }

    /** Has a guard hear a telegram; its demands in a situation of mode, direction and override. */
    hear(guard: Uint32Array, telegram: string, situation: number[]): Demand[] {
        const numbers = new Uint8Array(Uint32Array.from(situation).buffer), found: Demand[] = [];
        return this.with(bytesOfHex(telegram), ({ at, size }) => this.with(numbers, held => {
            let status = this.guarding(guard, one => this.x.etcs_guard_hear_(one, at, BigInt(size), held.at, this.out));
            for (let index = 0; status === OK; index++) {
                status = this.x.etcs_guard_demand_(at, BigInt(size), held.at, index, this.out);
                if (status === OK) found.push(this.reader().demand(Number(this.out)));
            }
            return found;
        }));
    }
}

/** A journal that is read, or run again, from its oldest block on. */
export class Journal {
    readonly status: number;
    private readonly places: bigint[];

    constructor(private readonly x: Exports, private readonly image: Held, private readonly at: bigint,
        private readonly out: bigint) {
        this.places = Array.from({ length: AT_ONCE }, (_, n) => out + BigInt(BYTES.record * n));
        this.status = x.etcs_journal_open_(image.at, BigInt(image.size), ABI, at);
    }

    private reader(): Reader { return new Reader(new DataView(this.x.memory.buffer)); }

    /**
     * The bytes of the next records, at most AT_ONCE, one after the other; and where one didn't come, the status of
     * its call and the block at which the journal stood before it.
     */
    nextOnes(): { bytes: Uint8Array; status: number; block: number } {
        const { x, image, at, places, out } = this, size = BigInt(image.size);
        let count = 0, status = OK, block = 0, stands = new BigUint64Array(0);
        for (; count < AT_ONCE && status === OK; count++) {
            if (!stands.length) stands = new BigUint64Array(x.memory.buffer, Number(at), 1);
            block = Number(stands[0]);
            status = x.etcs_journal_next_(image.at, size, at, places[count] ?? out);
        }
        if (status !== OK) count--;
        return { bytes: this.reader().bytes(Number(out), BYTES.record * count), status, block };
    }

    /** The number of the block at which the journal is. */
    block(): number { return this.reader().u64(Number(this.at)); }

    /** The next line of a replay. */
    replay(): Answer<Replay> {
        const status = this.x.etcs_image_replay_(this.image.at, BigInt(this.image.size), ABI, this.at, this.out);
        return { status, value: status === OK ? this.reader().replay(Number(this.out)) : null };
    }

    drop(): void {
        this.x.etcs_memory_give(this.at);
        this.x.etcs_memory_give(this.out);
    }
}

/** Records as the calls wrote them, one after the other. */
export class Records {
    private readonly reader: Reader;
    readonly count: number;

    constructor(bytes: Uint8Array) {
        this.reader = new Reader(new DataView(bytes.buffer, bytes.byteOffset, bytes.byteLength));
        this.count = bytes.byteLength / BYTES.record;
    }

    get(index: number): JournalRecord { return this.reader.record(BYTES.record * index); }
    /** The index of the record of an event; null where there is none. */
    find(event: number): number|null {
        let low = 0, high = this.count;
        while (low < high) {
            const middle = (low + high) >> 1;
            if (this.event(middle) < event) low = middle + 1;
            else high = middle;
        }
        return low < this.count && this.event(low) === event ? low : null;
    }

    event(index: number): number { return this.reader.u64(BYTES.record * index); }
    block(index: number): number { return this.reader.u64(BYTES.record * index + 8); }
    moment(index: number): number { return this.reader.u64(BYTES.record * index + 16); }
    /** A record of format 1 has no place and no limit. */
    front(index: number): number|null {
        return this.hasPlace(index) ? this.reader.i64(BYTES.record * index + 24) : null;
    }
    limit(index: number): number|null {
        return this.hasPlace(index) ? this.reader.u32(BYTES.record * index + 40) : null;
    }
    life(index: number): number { return this.reader.u32(BYTES.record * index + 44); }
    kind(index: number): number { return this.reader.u8(BYTES.record * index + 49); }
    brake(index: number): number { return this.reader.u8(BYTES.record * index + 52); }
    mode(index: number): number { return this.reader.u8(BYTES.record * index + 50); }
    level(index: number): number { return this.reader.u8(BYTES.record * index + 51); }
    indications(index: number): number { return this.reader.u8(BYTES.record * index + 53); }
    hasPlace(index: number): boolean { return this.reader.hasPlace(BYTES.record * index); }
    /** The speed of an odometer reading. */
    readSpeed(index: number): number {
        const at = BYTES.record * index + 60;
        return [0, 1, 2, 3].reduce((number, n) => 0x100 * number + this.reader.u8(at + n), 0);
    }
}
