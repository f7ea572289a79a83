// The variables of a telegram: each with its number, the quantity that this is, and its bits, and next to a packet its
// layout. Another number gives other bits: a counter or a qualifier adds variables, or takes some away.
import {Calls} from "./calls";
import {Child, make} from "./dom";
import {short} from "./escaping";
import {flat, Item, layoutText, Leaf, walk, Wrong} from "./grammar";
import {bitsOf, digitsOf} from "./hex";
import {faultAt} from "./judging";
import {mark} from "./numbers";
import {quantity} from "./quantities";
import {Field, HEAD_BITS, Reading, ReadPacket} from "./reading";
import {FORM} from "./texts";
import {given, telegrams} from "./tracks";

interface Line {
    field: Field;
    depth: number
}

/** The variables of some items, each with how many lists and qualifiers it is in. */
function linesOf(items: Item<Field>[], depth = 0): Line[] {
    return items.flatMap(
        ({ first, leaf, groups }) => [...linesOf(first, depth + 1), ...(leaf ? [{ field: leaf, depth }] : []),
            ...groups.flatMap(one => linesOf(one, depth + 1))]);
}

/** The packets that may be added: as a text of their variables, or with zeros. */
function offered(): [string, string][] {
    const titles = new Map(FORM.packets.map(text => [Number.parseInt(text), text]));
    const numbers = [...Object.keys(given.grammar.layouts), ...Object.keys(given.grammar.skipped)].map(Number);
    return numbers.sort((one, other) => one - other)
        .map(number => [titles.get(number) ?? `${number}:`, `${number}: ${given.grammar.names[number] ?? ""}`]);
}

export class Form {
    private reading: Reading|null = null;
    private fault: Field|null = null;
    private readonly said = make("p", { class: "bad", role: "alert" });

    /** `changed` is given the telegram in hex that comes of another number. */
    constructor(private readonly root: HTMLElement, private readonly calls: Calls,
        private readonly changed: (digits: string) => void) {}

    /** Shows the variables of a telegram in hex. */
    show(digits: string): void {
        const key =
            this.root.contains(document.activeElement) && (document.activeElement as HTMLElement).dataset["key"];
        const reading = this.reading = telegrams.reader.read(bitsOf(digits));
        this.fault = digits ? faultAt(this.calls, reading) : null;
        if (!digits) {
            this.root.replaceChildren();
            return;
        }
        const { header, packets, end } = reading;
        this.root.replaceChildren(this.part(FORM.header, [], header.map(field => ({ field, depth: 0 })), null, 0),
            ...packets.map((packet, n) => this.packet(packet, n + 1)),
            make("p", { class: end === null ? "bad" : "" }, end === null ? `${FORM.noEnd}.` : FORM.end(end)),
            this.adder());
        if (key) this.root.querySelector<HTMLElement>(`[data-key="${key}"]`)?.focus();
    }

    private packet(packet: ReadPacket, place: number): HTMLElement {
        const { number, at, head, layout, items, fields, rest, end } = packet;
        const body = items ? linesOf(items) : fields.map(field => ({ field, depth: 0 }));
        const bad = (text: string): Child => make("p", { class: "bad" }, text),
              isKnown = telegrams.reader.isKnown(number);
        const before = [
            !isKnown && make("p", { class: "warn" }, FORM.skipped),
            make("p", {}, layout ? make("code", {}, layoutText(layout) || FORM.headAlone) : FORM.noLayout)
        ];
        const after = [
            layout && !items && bad(FORM.tooShort),
            items && isKnown && rest !== end && bad(FORM.otherLength(rest - at)),
            rest < end && make("p", {}, FORM.rest(rest, end - 1), make("code", {}, this.bits(rest, end))),
            make("button", { click: () => this.change(() => this.without(packet)) }, FORM.remove(number))
        ];
        const lines = [...head.map(field => ({ field, depth: 0 })), ...body];
        return this.part(
            `${number}: ${given.grammar.names[number] ?? FORM.noName}`, before, lines, packet, place, after);
    }

    private part(title: string, before: Child[], lines: Line[], packet: ReadPacket|null, place: number,
        after: Child[] = []): HTMLElement {
        const scale = Number(lines.find(({ field }) => field.name === "Q_SCALE")?.field.number ?? 1);
        const heads = FORM.heads.map(head => make("th", { scope: "col" }, head));
        const rows = lines.map((line, n) => this.row(line, packet, scale, `${place}.${n}`, title));
        const lists = make("table", {}, make("thead", {}, make("tr", {}, ...heads)), make("tbody", {}, ...rows));
        return make("fieldset", { class: "packet" }, make("legend", {}, title), ...before,
            make("div", { class: "scroll" }, lists), ...after);
    }

    private row(
        { field, depth }: Line, packet: ReadPacket|null, scale: number, key: string, title: string): HTMLElement {
        const { name, number, at, width } = field, isBad = this.fault?.at === at, says = quantity(field, scale);
        const input = make("input", {
            inputmode: "numeric",
            size: 8,
            value: number.toString(),
            "data-key": key,
            "aria-label": `${name}, ${title}`,
            "aria-invalid": isBad ? "true" : null
        });
        input.addEventListener("change", () => this.change(() => this.altered(packet, field, input.value), input));
        return make("tr", { class: isBad ? "bad" : "" },
            make("th", { scope: "row", class: `depth-${Math.min(3, depth)}` }, name), make("td", {}, input),
            make("td", {}, isBad ? make("strong", { class: "bad" }, FORM.bad) : says),
            make("td", {}, width === 1 ? String(at) : `${at} to ${at + width - 1}`),
            make("td", {}, make("code", {}, this.bits(at, at + width))));
    }

    private adder(): HTMLElement {
        const select = make("select", { "aria-label": FORM.add }, make("option", { value: "" }, FORM.add),
            ...offered().map(([value, says]) => make("option", { value }, says)));
        select.addEventListener("change", () => this.change(() => this.with(select.value)));
        return make("p", {}, select);
    }

    private bits(from: number, end: number): string { return this.reading?.bits.slice(from, end) ?? ""; }

    // ---- other bits

    /**
     * Hands on what comes of a change, once the focus is where it goes. A wrong entry stays in its field, which is
     * marked.
     */
    private change(make: () => string, field?: HTMLInputElement): void {
        setTimeout(() => {
            this.said.remove();
            try {
                this.changed(telegrams.fits(digitsOf(make())));
            } catch (error) {
                if (!(error instanceof Wrong)) throw error;
                if (field) mark(field, false);
                this.said.textContent = `${error.message}.`;
                this.root.prepend(this.said);
            }
        });
    }

    /** The bits with others from one on up to an end; zeros after the end mark that only filled a byte are gone. */
    private spliced(from: number, to: number, others: string): string {
        const { end } = this.reading ?? { end: null }, tail = end === null ? "" : this.bits(end + 8, Infinity);
        const last = end === null || tail.includes("1") ? Infinity : end + 8;
        return this.bits(0, from) + others + this.bits(to, last);
    }

    private altered(packet: ReadPacket|null, field: Field, text: string): string {
        if (!/^\s*[0-9]{1,20}\s*$/.test(text)) throw new Wrong(FORM.noNumber(field.name, short(text)));
        const number = BigInt(text), bits = telegrams.bits([[field.name, number]]);
        const take = (name: string, before: Leaf|undefined): Leaf =>
            ({ name, number: before === field ? number : before?.number ?? given.grammar.usual[name] ?? 0 });
        const items = packet?.layout && packet.items ? walk(packet.layout, take, packet.items) : null,
              leaves = items ? flat(items) : [];
        const isAsBefore =
            leaves.length === packet?.fields.length && leaves.every(({ name }, n) => name === packet.fields[n]?.name);
        if (!items || !packet || isAsBefore)
            return this.bits(0, field.at) + bits + this.bits(field.at + field.width, Infinity);
        const body =
            telegrams.bits(leaves.map(({ name, number }) => [name, number])) + this.bits(packet.rest, packet.end);
        const scale = packet.head.slice(3).map(({ at, width }) => this.bits(at, at + width)).join("");
        const length = telegrams.bits([["L_PACKET", HEAD_BITS + scale.length + body.length]]);
        return this.spliced(
            packet.at, Math.max(packet.end, packet.rest), this.bits(packet.at, packet.at + 10) + length + scale + body);
    }

    private without({ at, end }: ReadPacket): string { return this.spliced(at, end, ""); }

    /** The bits with a packet before the end mark. */
    private with(text: string): string {
        const end = this.reading?.end;
        if (end === null || end === undefined) throw new Wrong(FORM.noEnd);
        const number = Number.parseInt(text), layout = given.grammar.skipped[number];
        const zeros = (name: string): Leaf => ({ name, number: given.grammar.usual[name] ?? 0 });
        const body = layout && text.endsWith(":")
            ? flat(walk(layout, zeros)).map(({ name, number }) => `${name} ${number}`).join(", ")
            : "";
        const packet = telegrams.parsed(`NID_BG 0; ${text} ${body}`).packets[0];
        return this.spliced(end, end, packet ? telegrams.bits(packet) : "");
    }
}
