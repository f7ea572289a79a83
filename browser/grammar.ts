// How telegrams are laid out (SUBSET-026, 7.4.2, 7.5.1): layouts, widths, units and names are those of the package
// python/gaknifur, which tools/page writes into the page. One walk goes along a layout, whatever it takes numbers from.

/**
 * A variable by its name; a variable and those that follow where it has a number; variables that stand where an
 * earlier one has a number; a list after its counter, with a first element before that where `more`.
 */
export interface Where {
    where: string;
    number: number;
    parts: Part[]
}
export interface Choice {
    choice: string;
    number: number;
    parts: Part[]
}
export interface List {
    list: Part[];
    more: boolean;
    counter: string
}
export type Part = string|Where|Choice|List;
export interface Grammar {
    widths: Record<string, number>;
    /** Of a variable that is a quantity: `scale` is a step of Q_SCALE. */
    units: Record<string, string>;
    /** The names of packets. */
    names: Record<string, string>;
    /** The header in its order, with the value of a variable that isn't given; null where it has to be given. */
    header: [string, number|null][];
    usual: Record<string, number>;
    layouts: Record<string, Part[]>;
    /** Of packets that the kernel skips; of some the layout is only the beginning. */
    skipped: Record<string, Part[]>;
    /** Of packets that a track sends in another order than the kernel reads them. */
    asSent: Record<string, Part[]>;
    thenBits: number[];
    withoutScale: number[];
    endMark: number;
    mostBytes: number
}

/** A telegram, or a packet of it, that can't be written or read so. */
export class Wrong extends Error {}

export function isList(part: Part): part is List { return typeof part !== "string" && "list" in part; }
export function isChoice(part: Part): part is Choice { return typeof part !== "string" && "choice" in part; }

/** A layout as docs/reference/packets.md writes it. */
export function layoutText(parts: Part[]): string {
    return parts
        .map(part => {
            if (typeof part === "string") return part;
            if (isList(part))
                return `${part.more ? layoutText(part.list) + " " : ""}(${part.counter} ${layoutText(part.list)})`;
            if (isChoice(part)) return `[${part.choice}=${part.number} ${layoutText(part.parts)}]`;
            return `${part.where} [${part.where}=${part.number} ${layoutText(part.parts)}]`;
        })
        .join(" ");
}

/** A variable that was taken. */
export interface Leaf {
    name: string;
    number: number|bigint
}
/**
 * What a part of a layout came to: of a list its first element, its counter and its elements; of a qualifier itself and
 * what follows; of a choice what follows.
 */
export interface Item<L extends Leaf> {
    first: Item<L>[];
    leaf: L|null;
    groups: Item<L>[][]
}

/** All variables of some items in their order. */
export function flat<L extends Leaf>(items: Item<L>[]): L[] {
    return items.flatMap(
        ({ first, leaf, groups }) => [...flat(first), ...(leaf ? [leaf] : []), ...groups.flatMap(one => flat(one))]);
}

/**
 * Goes along a layout and takes each variable that stands there, in its order. `before` is what the layout came to
 * before; `take` is given the variable that stood in this place then, or in an added element that of the last one.
 */
export function walk<L extends Leaf>(parts: Part[], take: (name: string, before: Leaf|undefined) => L,
    before: Item<Leaf>[] = [], taken: L[] = []): Item<L>[] {
    const one = (name: string, old: Item<Leaf>|undefined): L => {
        const leaf = take(name, old?.leaf ?? undefined);
        taken.push(leaf);
        return leaf;
    };
    const within = (inner: Part[], old: Item<Leaf>[]|undefined): Item<L>[] => walk(inner, take, old, taken);
    return parts.map((part, n) => {
        const old = before[n];
        if (typeof part === "string") return { first: [], leaf: one(part, old), groups: [] };
        if (isList(part)) {
            const first = part.more ? within(part.list, old?.first) : [], leaf = one(part.counter, old), groups = [];
            const last = old?.groups[old.groups.length - 1] ?? old?.first;
            for (let n = 0; n < leaf.number; n++) groups.push(within(part.list, old?.groups[n] ?? last));
            return { first, leaf, groups };
        }
        const leaf = isChoice(part) ? null : one(part.where, old);
        const decides = isChoice(part) ? taken.filter(({ name }) => name === part.choice).pop() : leaf;
        const groups = Number(decides?.number) === part.number ? [within(part.parts, old?.groups[0])] : [];
        return { first: [], leaf, groups };
    });
}
