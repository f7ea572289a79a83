// What the bits of a telegram are read as, variable by variable with their places, also of one that the unit refuses:
// packets by their L_PACKET, as far as they go. Whether it is a telegram the unit says.
import {Grammar, Item, Leaf, Part, walk, Wrong} from "./grammar";

/** A variable with its first bit and its width. */
export interface Field extends Leaf {
    at: number;
    width: number
}
export interface ReadPacket {
    /** Its first bit, and the one after its last, by L_PACKET as far as there are bits. */
    at: number;
    end: number;
    number: number;
    /** NID_PACKET, Q_DIR, L_PACKET, and in a packet of the kernel's Q_SCALE. */
    head: Field[];
    layout: Part[]|null;
    /** What its layout came to; null where it has none, and where its bits end before. */
    items: Item<Field>[]|null;
    fields: Field[];
    /** The first bit that no variable has, `end` where each has one. */
    rest: number
}
export interface Reading {
    bits: string;
    header: Field[];
    packets: ReadPacket[];
    /** The first bit of the end mark; null where none is found. */
    end: number|null
}
export const HEAD_BITS = 23;

/** The variables from a bit on, up to an end. */
class Bits {
    constructor(private readonly grammar: Grammar, private readonly bits: string, public at: number,
        private readonly end: number) {}

    take(name: string): Field {
        const width = this.grammar.widths[name] ?? 0, at = this.at;
        if (at + width > this.end) throw new Wrong("the bits end within a variable");
        this.at += width;
        const digits = this.bits.slice(at, this.at);
        return { name, at, width, number: width > 53 ? BigInt(`0b${digits}`) : parseInt(digits, 2) };
    }
}

export class Reader {
    constructor(private readonly grammar: Grammar) {}

    isKnown(packet: number): boolean { return String(packet) in this.grammar.layouts; }
    hasScale(packet: number): boolean { return this.isKnown(packet) && !this.grammar.withoutScale.includes(packet); }

    /** The variables of a header, as far as there are bits. */
    header(bits: string): Field[] {
        const it = new Bits(this.grammar, bits, 0, bits.length), found: Field[] = [];
        try {
            for (const [name] of this.grammar.header) found.push(it.take(name));
        } catch (error) {
            if (!(error instanceof Wrong)) throw error;
        }
        return found;
    }

    read(bits: string): Reading {
        const { header, endMark } = this.grammar, packets: ReadPacket[] = [], found = this.header(bits);
        const last = found[found.length - 1];
        if (found.length < header.length || !last) return { bits, header: found, packets, end: null };
        try {
            for (let at = last.at + last.width;;) {
                if (Number(new Bits(this.grammar, bits, at, bits.length).take("NID_PACKET").number) === endMark)
                    return { bits, header: found, packets, end: at };
                const packet = this.packet(bits, at);
                packets.push(packet);
                if (packet.end - at < HEAD_BITS) break;
                at = packet.end;
            }
        } catch (error) {
            if (!(error instanceof Wrong)) throw error;
        }
        return { bits, header: found, packets, end: null };
    }

    private packet(bits: string, at: number): ReadPacket {
        const it = new Bits(this.grammar, bits, at, bits.length);
        const head = [it.take("NID_PACKET"), it.take("Q_DIR"), it.take("L_PACKET")];
        const number = Number(head[0]?.number), end = Math.min(bits.length, at + Number(head[2]?.number));
        const { layouts, skipped, asSent } = this.grammar, layout = layouts[number] ?? skipped[number] ?? null;
        const begun = { at, end, number, head, layout };
        const one = this.body(bits, begun, this.hasScale(number)), other = asSent[number];
        if (one.rest === end || !other) return one;
        const sent = this.body(bits, {...begun, layout: other }, false);
        return sent.rest === end ? sent : one;
    }

    private body(
        bits: string, begun: Pick<ReadPacket, "at"|"end"|"number"|"head"|"layout">, hasScale: boolean): ReadPacket {
        const { at, end, number, layout } = begun;
        // (a packet of its own the unit reads by its layout, whatever its L_PACKET is)
        const last = layout === this.grammar.layouts[number] ? bits.length : end;
        const it = new Bits(this.grammar, bits, at + HEAD_BITS, last);
        const head = [...begun.head], fields: Field[] = [];
        let items: Item<Field>[]|null = null;
        try {
            if (hasScale) head.push(it.take("Q_SCALE"));
            if (layout) items = walk(layout, name => it.take(name), [], fields);
        } catch (error) {
            if (!(error instanceof Wrong)) throw error;
        }
        return {...begun, head, items, fields, rest: Math.max(it.at, Math.min(end, at + HEAD_BITS)) };
    }

    /**
     * Whether each variable of a packet is known: its layout and its L_PACKET are one, or only its beginning has a
     * layout.
     */
    isKnownWhole({ number, end, items, rest }: ReadPacket): boolean {
        return items !== null && (rest === end || this.grammar.thenBits.includes(number));
    }
}
