// Asks a worker why an event of the desk's medium was answered so, one question at a time: the life is run again from
// its power-up, which takes longer as it grows.
import {Why} from "./layouts";
import {Order, Report} from "./messages";

export class Asker {
    private id = 0;
    private then: ((why: Why|null) => void)|null = null;

    constructor(private readonly worker: { postMessage(order: Order, transfer: Transferable[]): void }) {}

    get isBusy(): boolean { return this.then !== null; }

    ask(bytes: Uint8Array, block: number, event: number, then: (why: Why|null) => void): void {
        this.then = then;
        this.worker.postMessage({ kind: "once", id: ++this.id, bytes: bytes.buffer, block, event }, [bytes.buffer]);
    }

    hear(report: Report): void {
        const { then } = this;
        if (report.id !== this.id || !then) return;
        this.then = null;
        then(report.kind === "why" ? report.why : null);
    }
}
