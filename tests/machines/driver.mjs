// The driver (driver.c) over the library in WebAssembly: the same script, the same answers.
//
//     node --experimental-wasm-memory64 driver.mjs etcs.wasm <SCRIPT
import fs from 'node:fs';

const { instance } = await WebAssembly.instantiate(fs.readFileSync(process.argv[2]), {});
const x = instance.exports;
const SECTOR = 512, SECTORS = 1 + 6 * 64, MOST = SECTOR * SECTORS, OUTPUTS = 8, REQUEST = 8192, OK = 0, FAILED = 21, WRITE = 1n, READ = 3n, NO_SUCH_REQUEST = 249;
const SIZE = { request: 24, output: 16, state: 80, facts: 32, slot: 32, start: 16, block: 208, record: 160, journal: 24, replay: 720, why: 160, train: 20, explained: 144, driver: 208, unused: 24 };

const bytesAt = (at, length) => new Uint8Array(x.memory.buffer, Number(at), Number(length));
const take = size => {
    const at = x.etcs_memory_take(BigInt(size));
    if (at === 0n) throw Error('no memory');
    bytesAt(at, size).fill(0);
    return at;
};

const media = [take(MOST), take(MOST)], lengths = [0, 0], units = [take(32), take(32)];
const journal = take(SIZE.journal), bytes = take(REQUEST), request = take(SIZE.request), outputs = take(OUTPUTS * SIZE.output), count = take(8);
const state = take(SIZE.state), train = take(SIZE.train), result = take(SIZE.replay), none = take(32), some = take(2 * SECTOR);
let on = 0, which = 0, bySectors = false, readsAtMost = MOST, digest = 0n, words = [], answers = [], last = [0n, 0n];

const U64 = (1n << 64n) - 1n;
const add = (at, length) => {
    for (const byte of bytesAt(at, length)) digest = ((digest ^ BigInt(byte)) * 0x100000001B3n) & U64;
};
const number = () => BigInt.asUintN(64, BigInt(words.shift() ?? 0));
const small = () => Number(BigInt.asUintN(32, number()));
const limited = (value, most) => BigInt(value < BigInt(most) ? value : most);
const hex = most => {
    const digits = words.shift() ?? '', length = Math.min(digits.length >> 1, most);
    for (let i = 0; i < length; i++) bytesAt(bytes, REQUEST)[i] = parseInt(digits.slice(2 * i, 2 * i + 2), 16);
    return BigInt(length);
};

const unit = () => units[which];
const read64 = (at, place) => new DataView(x.memory.buffer).getBigUint64(Number(at) + 8 * place, true);
const bytesFrom = (from, size) => {
    const medium = bytesAt(media[on], MOST), room = bytesAt(some, 2 * SECTOR), place = Number(from % BigInt(MOST));
    for (let i = 0; i < Number(size); i++) room[i] = medium[(place + i) % MOST];
    return some;
};
const handsIn = () => {
    const sector = read64(request, 0);
    return x.etcs_unit_provide(unit(), sector, bytesFrom(sector * BigInt(SECTOR), SECTOR), BigInt(SECTOR));
};
const addRequest = () => {
    add(request, SIZE.request);
    if (read64(request, 2) === WRITE) add(bytes, Number(read64(request, 1)) * SECTOR);
};
const next = () => x.etcs_unit_request(unit(), request, bytes, BigInt(REQUEST));
const reads = most => {
    let status;
    while ((status = next()) === OK && read64(request, 2) === READ) {
        addRequest();
        if (most-- === 0n) return FAILED;
        if ((status = handsIn()) !== OK) return status;
    }
    return status === NO_SUCH_REQUEST ? OK : status;
};
const openBySectors = (cold, most) => then(x.etcs_unit_begin(unit(), BigInt(lengths[on] / SECTOR), cold), () => reads(most));
const opens = cold => bySectors ? openBySectors(cold, U64) : x.etcs_unit_open(unit(), media[on], BigInt(lengths[on]), cold);
const carriesOut = (at, length) => {
    if (read64(request, 2) !== WRITE) return;
    const from = Number(read64(request, 0)) * SECTOR, room = Math.min(length, MOST - from);
    if (room > 0) bytesAt(media[on], MOST).set(bytesAt(at, room), from);
};
const carryOut = (most, rest) => {
    let status;
    while ((status = next()) === OK) {
        const length = Number(read64(request, 1)) * SECTOR, isRead = read64(request, 2) === READ;
        addRequest();
        if (!isRead && most-- === 0n) {
            carriesOut(bytes, rest < BigInt(length) ? Number(rest) : length);
            return FAILED;
        }
        carriesOut(bytes, length);
        if ((status = isRead ? handsIn() : x.etcs_unit_done(unit())) !== OK) return status;
    }
    return status === NO_SUCH_REQUEST ? OK : status;
};
const release = room => {
    const status = x.etcs_unit_release(unit(), outputs, limited(room, OUTPUTS), count);
    if (status !== OK) return status;
    const d = new DataView(x.memory.buffer);
    for (let i = 0; i < d.getUint32(Number(count), true); i++) {
        const at = Number(outputs) + SIZE.output * i;
        answers.push(`event ${d.getBigUint64(at, true)} mode ${d.getUint8(at + 12)} level ${d.getUint8(at + 13)} brake ${d.getUint8(at + 14)} `
            + `limit ${d.getUint32(at + 8, true)} ind ${d.getUint8(at + 15)}`);
    }
    return OK;
};
const then = (status, ...steps) => {
    for (const step of steps) if (status === OK) status = step();
    return status;
};
const digested = (status, at, length) => {
    if (status === OK) add(at, length);
    return status;
};
const digestedRequest = status => {
    if (status === OK) addRequest();
    return status;
};
const whole = () => carryOut(U64, 0n), all = () => release(BigInt(OUTPUTS));
const size = () => BigInt(Math.min(readsAtMost, lengths[on]));
const format = slots => {
    let index = 0, status;
    lengths[on] = Math.min((1 + 6 * slots) * SECTOR, MOST);
    bytesAt(media[on], MOST).fill(0);
    while ((status = x.etcs_unit_format_request(slots, index, request, bytes, BigInt(SECTOR))) === OK && index < SECTORS) {
        carriesOut(bytes, Number(read64(request, 1)) * SECTOR);
        index++;
    }
    return status;
};
const nulls = () => {
    const m = media[on], b = bytes, n = none, z = 0n;
    return [
        x.etcs_version(z, 32n, count), x.etcs_version(b, 32n, z),
        x.etcs_build_info(z, 160n, count), x.etcs_build_info(b, 160n, z), x.etcs_build_proof(),
        x.etcs_unit_open(z, m, 512n, 0), x.etcs_unit_open(n, z, 512n, 0), x.etcs_unit_telegram(z, b, 1n), x.etcs_unit_telegram(n, z, 1n),
        x.etcs_unit_odometer(z, 0n, 0), x.etcs_unit_clock(z, 0n), x.etcs_unit_action(z, 1), x.etcs_unit_identity(z, b, 1n), x.etcs_unit_identity(n, z, 1n),
        x.etcs_unit_running_number(z, 1), x.etcs_unit_train_data(z, train), x.etcs_unit_train_data(n, z), x.etcs_unit_prepare(z),
        x.etcs_unit_request(z, request, b, 512n), x.etcs_unit_request(n, z, b, 512n), x.etcs_unit_request(n, request, z, 512n),
        x.etcs_unit_done(z), x.etcs_unit_fail(z), x.etcs_unit_release(z, outputs, 8n, count), x.etcs_unit_release(n, z, 8n, count),
        x.etcs_unit_release(n, outputs, 8n, z), x.etcs_unit_begin(z, 13n, 0), x.etcs_unit_provide(z, 0n, b, 512n),
        x.etcs_unit_provide(n, 0n, z, 512n), x.etcs_unit_state(z, state), x.etcs_unit_state(n, z), x.etcs_unit_close(z),
        x.etcs_unit_format_request(2, 0, z, b, 512n), x.etcs_unit_format_request(2, 0, request, z, 512n),
        x.etcs_image_facts(z, 512n, result), x.etcs_image_facts(m, 512n, z), x.etcs_image_slot(z, 512n, 0n, 0n, result), x.etcs_image_slot(m, 512n, 0n, 0n, z),
        x.etcs_image_slot_start(z, 1024n, 1n, 0n, some), x.etcs_image_slot_start(m, 1024n, 1n, 0n, z),
        x.etcs_image_block(z, 512n, 1n, result), x.etcs_image_block(m, 512n, 1n, z), x.etcs_image_record(z, 512n, 1n, 0, result),
        x.etcs_image_record(m, 512n, 1n, 0, z), x.etcs_journal_open(z, 512n, journal), x.etcs_journal_open(m, 512n, z),
        x.etcs_journal_next(z, 512n, journal, result), x.etcs_journal_next(m, 512n, z, result), x.etcs_journal_next(m, 512n, journal, z),
        x.etcs_image_replay(z, 512n, journal, result), x.etcs_image_replay(m, 512n, z, result), x.etcs_image_replay(m, 512n, journal, z),
        x.etcs_image_why(z, 512n, 1n, 0n, result), x.etcs_image_why(m, 512n, 1n, 0n, z),
    ].filter(status => status === 253).length;
};
const image = (call, length, ...numbers) => digested(x[call](media[on], size(), ...numbers, result), result, length);

const CALLS = {
    kind: () => { bySectors = number() % 2n === 1n; return 0; },
    open: () => then(opens(small()), whole, all),
    flush: () => then(x.etcs_unit_prepare(unit()), whole, all),
    cut: () => {
        const most = number(), status = then(x.etcs_unit_prepare(unit()), () => carryOut(most, number()));
        x.etcs_unit_close(unit());
        return status;
    },
    dies: () => {
        const opened = opens(small()), most = number(), status = then(opened, () => carryOut(most, number()));
        x.etcs_unit_close(unit());
        return status;
    },
    stops: () => {
        x.etcs_unit_close(unit());
        const cold = small(), status = openBySectors(cold, number());
        x.etcs_unit_close(unit());
        return status;
    },
    begin: () => { const sectors = number(); return x.etcs_unit_begin(unit(), sectors, small()); },
    begins: () => x.etcs_unit_begin(unit(), BigInt(lengths[on] / SECTOR), small()),
    goes: () => reads(number()),
    provide: () => { const at = number(), size = limited(number(), 2 * SECTOR); return x.etcs_unit_provide(unit(), at, bytesFrom(number(), size), size); },
    close: () => x.etcs_unit_close(unit()),
    prepare: () => x.etcs_unit_prepare(unit()),
    request: () => { const room = BigInt(small()); return digestedRequest(x.etcs_unit_request(unit(), request, bytes, limited(room, REQUEST))); },
    done: () => x.etcs_unit_done(unit()),
    fail: () => x.etcs_unit_fail(unit()),
    release: () => release(number()),
    state: () => digested(x.etcs_unit_state(unit(), state), state, SIZE.state),
    telegram: () => { const length = hex(256); return x.etcs_unit_telegram(unit(), bytes, length); },
    odometer: () => { const movement = number(); return x.etcs_unit_odometer(unit(), BigInt.asIntN(64, movement), small()); },
    clock: () => x.etcs_unit_clock(unit(), number()),
    action: () => x.etcs_unit_action(unit(), small()),
    identity: () => { const length = hex(256); return x.etcs_unit_identity(unit(), bytes, length); },
    number: () => x.etcs_unit_running_number(unit(), small()),
    train: () => {
        for (let i = 0; i < 5; i++) { const value = small(); new DataView(x.memory.buffer).setUint32(Number(train) + 4 * i, value, true); }
        return x.etcs_unit_train_data(unit(), train);
    },
    slots: () => { const status = format(small()); add(media[on], lengths[on]); return status; },
    image: () => { add(media[on], lengths[on]); return 0; },
    whole: () => { readsAtMost = MOST; return 0; },
    size: () => { readsAtMost = Number(number()); return 0; },
    flip: () => { const offset = Number(number() % BigInt(MOST)); bytesAt(media[on], MOST)[offset] ^= Number(number() & 255n); return 0; },
    unit: () => { which = Number(number() % 2n); return 0; },
    medium: () => { on = Number(number() % 2n); return 0; },
    format: () => { const slots = small(), index = small(); return digestedRequest(x.etcs_unit_format_request(slots, index, request, bytes, limited(number(), SECTOR))); },
    version: () => {
        const status = x.etcs_version(bytes, limited(number(), SECTOR), count);
        return status === OK ? digested(status, bytes, new DataView(x.memory.buffer).getUint32(Number(count), true)) : status;
    },
    build: () => {
        const status = x.etcs_build_info(bytes, limited(number(), SECTOR), count);
        return status === OK ? digested(status, bytes, new DataView(x.memory.buffer).getUint32(Number(count), true)) : status;
    },
    decode: () => {
        const length = hex(256), status = x.etcs_decode(bytes, length);
        new DataView(x.memory.buffer).setUint32(Number(count), x.etcs_packet_count(bytes, length), true);
        add(count, 4);
        return status;
    },
    explain: () => digested(x.etcs_unit_why(unit(), result), result, SIZE.explained),
    keys: () => digested(x.etcs_unit_driver(unit(), result), result, SIZE.driver),
    unused: () => {
        const mode = small(), direction = small(), index = small();
        return digested(x.etcs_telegram_unused(bytes, hex(256), mode, direction, index, result), result, SIZE.unused);
    },
    facts: () => image('etcs_image_facts', SIZE.facts),
    slot: () => image('etcs_image_slot', SIZE.slot, number(), number()),
    start: () => {
        const slots = number(), at = number(), from = at < 1048576n ? BigInt(SECTOR) * (1n + 6n * at) : U64, rest = from < size() ? size() - from : 0n;
        const status = x.etcs_image_slot_start(media[on] + (rest > 0n ? from : 0n), rest, slots, at, some);
        if (status === OK) add(some, SIZE.start);
        return status;
    },
    block: () => image('etcs_image_block', SIZE.block, number()),
    record: () => image('etcs_image_record', SIZE.record, number(), small()),
    why: () => image('etcs_image_why', SIZE.why, number(), number()),
    journal: () => digested(x.etcs_journal_open(media[on], size(), journal), journal, SIZE.journal),
    next: () => {
        const status = image('etcs_journal_next', SIZE.record, journal);
        if (status === OK) last = [read64(result, 1), read64(result, 0)];
        return status;
    },
    cause: () => image('etcs_image_why', SIZE.why, ...last),
    replay: () => image('etcs_image_replay', SIZE.replay, journal),
    cursor: () => { for (let i = 0; i < 3; i++) { const value = number(); new DataView(x.memory.buffer).setBigUint64(Number(journal) + 8 * i, value, true); } return 0; },
    null: nulls,
};

const lines = fs.readFileSync(0, 'utf8').split('\n');
if (lines.at(-1) === '') lines.pop();
lines.forEach((line, at) => {
    words = line.split(' ');
    digest = 0xCBF29CE484222325n;
    const call = CALLS[words.shift()];
    const status = call ? call() : (answers.push('no such word'), 0);
    answers.push(`${at + 1} ${status} ${digest.toString(16)}`);
});
answers.push('end');
process.stdout.write(answers.join('\n') + '\n');
