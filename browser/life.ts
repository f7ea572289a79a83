// A unit on a medium that lies in the page's memory: what it is handed, what it asks of the medium, what it releases;
// and a loss of power, also within a write. What the unit was handed is kept as the steps of a scenario, as `etcs run`
// reads it.
import {Calls, Held, NO_SUCH_REQUEST, OK} from "./calls";
import {bytesOfHex} from "./hex";
import {Output, Request, SECTOR, State} from "./layouts";

const PENDING = 8;
export type Step = {
    telegram: string
}|{drive: [number, number]}|{clock: number}|{driver: (number|string)[]}|{flush: true};
export interface Group {
    at: number;
    spacing: number;
    balises: string[]
}
export interface Scenario {
    cold?: number;
    groups: Group[];
    steps: Step[]
}

/** A request of the unit, as it stands in its list. */
export interface Asked {
    request: Request;
    bytes: Uint8Array
}
/** What power left of a sector. */
export type Left = "old"|"new"|"foreign";

export class Refused extends Error {
    constructor(readonly status: number) { super(`status ${status}`); }
}

function must(status: number): void {
    if (status !== OK) throw new Refused(status);
}

/** A scenario as a file has it, a step on a line. */
export function textOf(scenario: Scenario): string {
    const steps = scenario.steps.map(step => "    " + JSON.stringify(step)).join(",\n");
    return `{\n${scenario.cold ? `  "cold": ${scenario.cold},\n` : ""}  "groups": [],\n  "steps": [\n${
        steps}\n  ]\n}\n`;
}

/** Bytes that are neither old nor new, the same ones each time. */
function foreign(sector: number): Uint8Array {
    return Uint8Array.from({ length: SECTOR }, (_, n) => (sector * 31 + n * 17 + 0x5a) & 0xff);
}

/** An empty journal. */
export function formatted(calls: Calls, slots: number): Uint8Array {
    const image = new Uint8Array(SECTOR * (1 + 6 * slots));
    for (let index = 0;; index++) {
        const { status, value } = calls.formatRequest(slots, index);
        if (status === NO_SUCH_REQUEST) return image;
        must(status);
        if (value && value.request.isWrite) image.set(value.bytes, SECTOR * value.request.sector);
    }
}

export const ACTIONS: Record<number, (values: (number|string)[]) => number> = {
    4: ([level]) => level === 1 ? 2 : 1,
    5: ([item]) => 2 + Number(item),
    6: () => 7,
    7: () => 8,
    8: () => 9,
    9: () => 10,
    10: ([kind]) => 10 + Number(kind),
    11: () => 15,
};

export class Life {
    private unit: bigint;
    private pending = 0;
    /** The requests that are to be carried out before the next release. */
    private list: Asked[] = [];
    /** Whether power was lost within a write: `etcs run` has no words for that. */
    isTorn = false;
    readonly steps: Step[] = [];
    readonly outputs: Output[] = [];

    /** Powers up on a medium, and carries the power-up out. */
    constructor(private readonly calls: Calls, readonly medium: Held, readonly cold: number) {
        this.unit = calls.newUnit();
        const status = calls.open(this.unit, medium, cold);
        if (status !== OK) {
            calls.freeUnit(this.unit);
            throw new Refused(status);
        }
        this.list = this.asked();
        this.carryOut();
    }

    get scenario(): Scenario {
        return this.cold ? { cold: this.cold, groups: [], steps: this.steps } : { groups: [], steps: this.steps };
    }

    get state(): State {
        const { status, value } = this.calls.state(this.unit);
        must(status);
        return value as State;
    }

    /** Hands the unit one event; where no more may be pending, what is pending is recorded first. */
    accept(step: Step): void {
        if ("flush" in step) {
            this.flush();
            return;
        }
        if (this.pending === PENDING) this.flush(false);
        must(this.hand(step));
        this.pending++;
        this.steps.push(step);
    }

    private hand(step: Step): number {
        if ("telegram" in step) return this.calls.telegram(this.unit, bytesOfHex(step.telegram));
        if ("drive" in step) return this.calls.odometer(this.unit, step.drive[0], step.drive[1]);
        if ("clock" in step) return this.calls.clock(this.unit, step.clock);
        if (!("driver" in step)) return OK;
        const [code, ...values] = step.driver;
        if (code === 1) return this.calls.identity(this.unit, String(values[0]));
        if (code === 2) return this.calls.runningNumber(this.unit, Number(values[0]));
        if (code === 3) {
            const [length = 0, maximum = 0, deceleration = 0, reaction = 0, category = 0] = values.map(Number);
            return this.calls.trainData(this.unit, { length, maximum, deceleration, reaction, category });
        }
        const action = ACTIONS[Number(code)];
        return this.calls.action(this.unit, action ? action(values) : 0);
    }

    /** Records what is pending, and answers what is released. A flush of its own stands in the scenario. */
    flush(isNoted = true): Output[] {
        if (this.pending && isNoted) this.steps.push({ flush: true });
        this.prepare();
        return this.carryOut();
    }

    private carryOut(): Output[] {
        for (const { request, bytes } of this.list)
            if (request.isWrite) this.write(request, bytes);
        const { status, value } = this.calls.release(this.unit);
        must(status);
        const released = value ?? [];
        this.outputs.push(...released);
        return released;
    }

    /**
     * Answers the reads, and takes all other requests, for the page to show them: they are carried out later, but
     * before anything is released.
     */
    private asked(): Asked[] {
        const list: Asked[] = [];
        for (;;) {
            const { status, value } = this.calls.request(this.unit);
            if (status === NO_SUCH_REQUEST) return list;
            must(status);
            const one = value as Asked;
            if (one.request.isRead) {
                must(this.calls.provide(this.unit, one.request.sector, this.medium));
            } else {
                list.push(one);
                must(this.calls.done(this.unit));
            }
        }
    }

    private write(request: Request, bytes: Uint8Array): void {
        this.calls.put(this.medium, SECTOR * request.sector, bytes);
    }

    /** Prepares what is pending, and carries nothing out: the requests within which power may be lost. */
    prepare(): Asked[] {
        must(this.calls.prepare(this.unit));
        this.pending = 0;
        this.list = this.asked();
        return this.list;
    }

    /** Carries out a list that was prepared, where no power was lost within it. */
    resume(): Output[] {
        this.steps.push({ flush: true });
        return this.carryOut();
    }

    /** Power is lost between two writes: what is pending is lost. */
    cut(): void {
        while (this.pending && this.steps.length) {
            this.steps.pop();
            this.pending--;
        }
        this.end();
    }

    /**
     * Power is lost within a request of a list that was prepared, a write or the sync after it: those before it are
     * done, and of the sectors that are open each is left as given.
     */
    cutWithin(list: Asked[], index: number, left: Left[]): void {
        const open = openAt(list, index);
        for (const { request, bytes } of list.slice(0, open))
            if (request.isWrite) this.write(request, bytes);
        const one = list[open];
        if (one) left.forEach((what, n) => this.leave(one, n, what));
        this.isTorn = true;
        this.end();
    }

    private leave(one: Asked, n: number, what: Left): void {
        const sector = one.request.sector + n;
        if (what === "new") this.calls.put(this.medium, SECTOR * sector, one.bytes.slice(SECTOR * n, SECTOR * (n + 1)));
        if (what === "foreign") this.calls.put(this.medium, SECTOR * sector, foreign(sector));
    }

    private end(): void {
        this.calls.close(this.unit);
        this.calls.freeUnit(this.unit);
    }
}

/** The write whose sectors are open at a request: itself, or where it is a sync the write before it. */
export function openAt(list: Asked[], index: number): number {
    return list[index]?.request.isWrite ? index : index - 1;
}
