// Telegrams by the variables of SUBSET-026, 7.5.1, as scenarios in YAML give them (docs/reference/test-cases.md), and
// the bits that they come to. Whether a telegram is one the unit says.
import {short} from "./escaping";
import {Grammar, isChoice, isList, Leaf, Part, Wrong} from "./grammar";
import {bitsOf, digitsOf} from "./hex";
import {HEAD_BITS, Reader} from "./reading";

/** The value of a text: a number that a `number` can't have exactly is a bigint. */
export type Pairs = [string, number | bigint][];
export interface Telegram {
    header: Pairs;
    packets: Pairs[]
}

const HEAD = ["Q_DIR", "L_PACKET", "Q_SCALE"];

function firstOf(parts: Part[]): string {
    const [part = ""] = parts;
    return typeof part === "string" ? part : isList(part) || isChoice(part) ? "" : part.where;
}

function pairsOf(leaves: Leaf[]): Pairs { return leaves.map(({ name, number }) => [name, number]); }

/** The names that may come first in an element, including what a qualifier that isn't given decides. */
function begins(element: Part[]): Set<string> {
    const found = new Set([firstOf(element)]);
    for (const part of element.slice(1)) {
        if (!isChoice(part)) {
            if (typeof part === "string" && found.size > 1) found.add(part);
            break;
        }
        found.add(firstOf(part.parts));
    }
    return found;
}

/** The value of a qualifier that isn't given: the number of the choice after it whose first variable is given. */
function answerOf(name: string, rest: Part[], comes: string|undefined): number|undefined {
    const choices = rest.filter(isChoice).filter(one => one.choice === name);
    const given = choices.find(one => one.parts[0] !== undefined && firstOf(one.parts) === comes);
    if (given) return given.number;
    if (!choices[0] || !name.startsWith("Q_")) return undefined;
    return [0, 1].find(number => choices.every(one => one.number !== number));
}

/** Takes the variables of a packet one by one: those that are given, or their usual values. */
class Writer {
    readonly written: Pairs = [];

    constructor(private readonly grammar: Grammar, private readonly packet: number, readonly left: Pairs) {}

    private get comes(): string|undefined { return this.left[0]?.[0]; }

    private take(name: string, usual: number|undefined): number|bigint {
        const given = this.comes === name ? this.left.shift()?.[1] : usual;
        if (given === undefined) {
            throw new Wrong(
                `packet ${this.packet}: ${name} is missing${this.comes ? ` before ${this.comes}` : " at the end"}`);
        }
        this.written.push([name, given]);
        return given;
    }

    write(parts: Part[]): void {
        for (const [at, part] of parts.entries()) {
            if (typeof part === "string")
                this.take(part, this.grammar.usual[part] ?? answerOf(part, parts.slice(at + 1), this.comes));
            else if (isList(part)) this.writeList(part.list, part.more, part.counter);
            else if (isChoice(part)) {
                const last = this.written.filter(([name]) => name === part.choice).pop();
                if (last?.[1] === part.number) this.write(part.parts);
            } else {
                const follows = this.comes === firstOf(part.parts);
                const usual = part.where.startsWith("M_") ? undefined : follows ? part.number : 0;
                if (this.take(part.where, usual) === part.number) this.write(part.parts);
            }
        }
    }

    private writeList(element: Part[], more: boolean, counter: string): void {
        if (more) this.write(element);
        const at = this.written.length, left = this.comes === counter ? this.take(counter, undefined) : null;
        const names = begins(element);
        let count = 0;
        while (left === null ? names.has(this.comes ?? "") : count < left) {
            this.write(element);
            count++;
        }
        if (left === null) this.written.splice(at, 0, [counter, count]);
    }
}

export class Telegrams {
    readonly reader: Reader;

    constructor(private readonly grammar: Grammar) { this.reader = new Reader(grammar); }

    private width(name: string): number {
        const width = this.grammar.widths[name];
        if (width === undefined) throw new Wrong(`there is no variable ${name}`);
        return width;
    }

    private pairs(text: string): Pairs {
        return text.split(",").map(one => one.trim()).filter(one => one).map(one => {
            const found = /^([A-Z][A-Z_0-9]*)\s+([0-9]{1,20})$/.exec(one);
            if (!found) throw new Wrong(`"${short(one)}" is no variable with a number`);
            this.width(found[1] ?? "");
            const number = Number(found[2]);
            return [found[1] ?? "", Number.isSafeInteger(number) ? number : BigInt(found[2] ?? "")];
        });
    }

    private packet(number: number, given: Pairs): Pairs {
        const head = new Map(given.filter(([name]) => HEAD.includes(name)));
        const { layouts, skipped, thenBits, usual } = this.grammar;
        const body = given.filter(([name]) => !HEAD.includes(name)), layout = layouts[number] ?? skipped[number];
        if (skipped[number]?.includes("Q_SCALE")) {
            body.unshift(["Q_SCALE", head.get("Q_SCALE") ?? usual["Q_SCALE"] ?? 1]);
            head.delete("Q_SCALE");
        }
        const writer = new Writer(this.grammar, number, body);
        if (layout) writer.write(layout);
        if (layout && !thenBits.includes(number) && writer.left[0])
            throw new Wrong(`packet ${number} has no ${writer.left[0][0]} there`);
        writer.written.push(...writer.left);
        if (this.reader.hasScale(number) || head.has("Q_SCALE"))
            writer.written.unshift(["Q_SCALE", head.get("Q_SCALE") ?? usual["Q_SCALE"] ?? 1]);
        const length = writer.written.reduce((sum, [name]) => sum + this.width(name), HEAD_BITS);
        return [
            ["NID_PACKET", number], ["Q_DIR", head.get("Q_DIR") ?? usual["Q_DIR"] ?? 2],
            ["L_PACKET", head.get("L_PACKET") ?? length], ...writer.written
        ];
    }

    /** The telegram that a text describes. */
    parsed(text: string): Telegram {
        const [first = "", ...rest] = text.split(";"), given = this.pairs(first);
        const header = new Map<string, number|bigint|null>(this.grammar.header);
        for (const [name, number] of given) {
            if (!header.has(name)) throw new Wrong(`the header has no ${name}`);
            header.set(name, number);
        }
        if (new Map(given).size !== given.length) throw new Wrong("a variable of the header stands twice");
        if (header.get("NID_BG") === null) throw new Wrong("the header has no NID_BG");
        const packets = rest.map(one => {
            const [head = "", ...body] = one.trim().split(":"), number = head.trim();
            if (!/^[0-9]{1,3}$/.test(number) || Number(number) > this.grammar.endMark)
                throw new Wrong(`"${short(one.trim())}" begins with no number of a packet`);
            return this.packet(Number(number), this.pairs(body.join(":")));
        });
        return { header: [...header].map(([name, number]) => [name, number ?? 0]), packets };
    }

    /** The bits of some variables. */
    bits(pairs: Pairs): string {
        return pairs
            .map(([name, number]) => {
                const width = this.width(name);
                if (!(number >= 0 && number < 2 ** width)) {
                    throw new Wrong(
                        `${name} has ${width} bits, from 0 to ${2 ** width - 1}, and ${number} doesn't fit`);
                }
                return number.toString(2).padStart(width, "0");
            })
            .join("");
    }

    /** Its bytes in hex: the end mark comes after the packets, and zeros fill the last byte. */
    digits({ header, packets }: Telegram): string {
        const { endMark } = this.grammar;
        const bits =
            [header, ...packets].map(pairs => this.bits(pairs)).join("") + endMark.toString(2).padStart(8, "0");
        return this.fits(digitsOf(bits));
    }

    /** The digits, where a telegram may have so many. */
    fits(digits: string): string {
        const { mostBytes } = this.grammar, bytes = digits.length / 2;
        if (bytes > mostBytes) throw new Wrong(`a telegram has at most ${mostBytes} bytes, and this one has ${bytes}`);
        return digits;
    }

    /**
     * The fields of a telegram in hex that the unit doesn't refuse; a packet whose layout isn't known has its head
     * alone.
     */
    read(digits: string): Telegram {
        const { header, packets, end } = this.reader.read(bitsOf(digits));
        if (end === null) throw new Wrong("the bits end before the end mark");
        return {
            header: pairsOf(header),
            packets: packets.map(one => {
                const isKnownWhole = this.reader.isKnownWhole(one);
                if (!isKnownWhole && this.reader.isKnown(one.number)) throw new Wrong("a packet has another length");
                return pairsOf(isKnownWhole ? [...one.head, ...one.fields] : one.head);
            })
        };
    }

    /** A telegram as a text: what is usual, or follows from the others, is left out. */
    text({ header, packets }: Telegram): string {
        const usual = new Map(this.grammar.header);
        const first = header.filter(([name, number]) => usual.get(name) !== number).map(([name, n]) => `${name} ${n}`);
        const rest = packets.map(([[, number] = ["", 0], ...pairs]) => {
            const given = pairs.filter(([name, value]) => name !== "L_PACKET" && name !== "N_ITER" &&
                    !((name === "Q_DIR" || name === "Q_SCALE") && this.grammar.usual[name] === value));
            return `${number}: ${given.map(([name, value]) => `${name} ${value}`).join(", ")}`;
        });
        return [first.join(", "), ...rest].join("; ");
    }
}
