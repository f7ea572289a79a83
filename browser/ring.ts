// The slots of an image, drawn as a ring: each an arc, or where there are many, one arc for several with the worst of
// them.
import {make, svg} from "./dom";
import {Slot} from "./layouts";
import {SLOTS} from "./texts";

const MOST = 240, LINED = 64, OUTER = 100, INNER = 72;
const KEYS: Record<string, (bin: number, bins: number) => number> = {
    ArrowRight: (bin, bins) => (bin + 1) % bins,
    ArrowDown: (bin, bins) => (bin + 1) % bins,
    ArrowLeft: (bin, bins) => (bin + bins - 1) % bins,
    ArrowUp: (bin, bins) => (bin + bins - 1) % bins,
    Home: () => 0,
    End: (_, bins) => bins - 1
};
/** What of several slots is shown: the greater. */
const RANK = [0, 1, 7, 5, 6, 3, 2, 4];

/** The states that some slots have, each with how many they are. */
export function legendOf(slots: Slot[]): Node[] {
    return SLOTS.flatMap(([name, says], state) => {
        const number = slots.filter(slot => slot.state === state).length;
        const swatch = make("span", { class: `swatch state-${state}` });
        return number ? [make("li", {}, swatch, `${number.toLocaleString("en")} × ${name}: ${says}`)] : [];
    });
}

/** The slot of some that is shown for all of them. */
function worstIn(slots: Slot[], first: number, end: number): number {
    let worst = first;
    for (let n = first; n < end; n++)
        if ((RANK[slots[n]?.state ?? 0] ?? 0) > (RANK[slots[worst]?.state ?? 0] ?? 0)) worst = n;
    return worst;
}

function arc(from: number, to: number, outer: number, inner: number): string {
    const end = Math.min(to, from + 2 * Math.PI - 1e-4), large = end - from > Math.PI ? 1 : 0;
    const p = (a: number, r: number): string => `${(r * Math.sin(a)).toFixed(3)} ${(-r * Math.cos(a)).toFixed(3)}`;
    return `M${p(from, outer)} A${outer} ${outer} 0 ${large} 1 ${p(end, outer)} L${p(end, inner)} A${inner} ${
        inner} 0 ${large} 0 ${p(from, inner)} Z`;
}

/** The whole ring is one stop of the Tab key; the arrow keys go from slot to slot. */
export function drawRing(
    root: SVGSVGElement, slots: Slot[], newest: number, chosen: number|null, pick: (slot: number) => void): void {
    const bins = Math.min(MOST, slots.length) || 1, parts: Element[] = [], isIn = root.contains(document.activeElement);
    const firstOf = (bin: number): number => Math.floor(bin * slots.length / bins);
    const stop = Math.max(0, [...Array(bins).keys()].findIndex(bin => chosen !== null && chosen < firstOf(bin + 1)));
    for (let bin = 0; bin < bins; bin++) {
        const first = firstOf(bin), end = firstOf(bin + 1);
        const worst = worstIn(slots, first, end), slot = slots[worst];
        if (!slot) continue;
        const isNewest = slots.slice(first, end).some(one => one.state === 1 && one.number === newest);
        const isChosen = chosen !== null && first <= chosen && chosen < end;
        parts.push(svg("path", {
            d: arc(2 * Math.PI * bin / bins, 2 * Math.PI * (bin + 1) / bins, isNewest ? OUTER + 8 : OUTER, INNER),
            class: `slot state-${slot.state}${slot.state === 1 && !slot.isSound ? " unsound" : ""}${
                isChosen ? " chosen" : ""}`,
            tabindex: bin === stop ? 0 : -1,
            "stroke-width": bins <= LINED ? 1 : 0,
            role: "button",
            "aria-label": `slot ${worst}: ${SLOTS[slot.state]?.[0] ?? ""} ${slot.number || ""}`,
            click: () => pick(worst),
            keydown: event => {
                const { key } = event as KeyboardEvent, to = KEYS[key]?.(bin, bins);
                if (to !== undefined) pick(worstIn(slots, firstOf(to), firstOf(to + 1)));
                else if (key === "Enter" || key === " ") pick(worst);
                else return;
                event.preventDefault();
            }
        },
            svg("title", {},
                `slot ${first}${end - first > 1 ? ` to ${end - 1}` : ""}: ${SLOTS[slot.state]?.[0] ?? ""} ${
                    slot.number || ""}`)));
    }
    parts.push(
        svg("text", { "text-anchor": "middle", y: -4, class: "ring-text big" }, slots.length.toLocaleString("en")),
        svg("text", { "text-anchor": "middle", y: 16, class: "ring-text" }, "slots"));
    root.replaceChildren(...parts);
    if (isIn) root.querySelector<SVGElement>("[tabindex='0']")?.focus();
}
