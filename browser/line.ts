// The line of a track with its groups, each a handle that is dragged, or moved by keys.
import {svg} from "./dom";
import {metres} from "./shown";
import {Kind} from "./judging";
import {EDIT} from "./texts";

export interface Handle {
    element: SVGElement;
    move(place: number): void;
    mark(kind: Kind): void
}
interface Drawn {
    at: number;
    balises: string[];
    kind: Kind
}
interface Use {
    choose(number: number): void;
    move(number: number, place: number): void;
    remove(number: number): void
}
const WIDTH = 1000, LEFT = 24, RIGHT = 40, LINE = 50, METRE = 100, SHORTEST = 100_000;
const KEYS: Record<string, number> = {
    ArrowRight: METRE,
    ArrowUp: METRE,
    ArrowLeft: -METRE,
    ArrowDown: -METRE,
    PageUp: 100 * METRE,
    PageDown: -100 * METRE,
};

/** Draws the groups; the first is where the train begins, and stays there. */
export function drawLine(root: Element, groups: Drawn[], use: Use): Handle[] {
    const reach = Math.max(SHORTEST, ...groups.map(group => 1.15 * group.at));
    const x = (place: number): number => LEFT + (WIDTH - LEFT - RIGHT) * place / reach;
    const parts: Element[] = [svg("line", { x1: LEFT, x2: WIDTH - RIGHT, y1: LINE, y2: LINE, class: "rail" })];
    const step =
        [50, 100, 200, 500, 1000, 2000, 5000, 10_000, 50_000, 100_000].find(m => m * METRE * 12 >= reach) ?? reach;
    for (let m = 0; m * METRE <= reach; m += step) {
        parts.push(svg("line", { x1: x(m * METRE), x2: x(m * METRE), y1: LINE, y2: LINE + 6, class: "rail" }),
            svg("text", { x: x(m * METRE), y: LINE + 22, "text-anchor": "middle", class: "axis" },
                m.toLocaleString("en")));
    }
    parts.push(svg("text", { x: WIDTH - 4, y: LINE + 22, "text-anchor": "end", class: "axis" }, "m"));
    const handles = groups.map((group, n) => handleOf(root, group, n, x, use, reach));
    root.replaceChildren(...parts, ...handles.map(handle => handle.element));
    return handles;
}

function handleOf(
    root: Element, group: Drawn, number: number, x: (place: number) => number, use: Use, reach: number): Handle {
    const name = svg("text", { y: -27, "text-anchor": "middle", class: "axis" });
    const element = svg("g", { role: number ? "slider" : "button", tabindex: 0 },
        svg("path", { d: number ? "M0 0 l-9 -20 h18 z" : "M-10 -22 h20 v14 h-20 z" }), name);
    const mark = (kind: Kind): void => {
        element.setAttribute("class", `handle ${kind}${element.classList.contains("chosen") ? " chosen" : ""}`);
        element.setAttribute("aria-description", EDIT.kinds[kind]);
        name.textContent = (number ? String(number) : EDIT.train) + EDIT.signs[kind];
    };
    const move = (place: number): void => {
        element.setAttribute("transform", `translate(${x(place).toFixed(1)} ${LINE})`);
        element.setAttribute("aria-label", number ? EDIT.group(number, metres(place)) : EDIT.begin);
        if (!number) return;
        const values = { min: 0, max: Math.round(reach / METRE), now: place / METRE, text: metres(place) };
        for (const [name, value] of Object.entries(values)) element.setAttribute(`aria-value${name}`, String(value));
    };
    let place = group.at;
    const set = (wanted: number): void => {
        place = Math.max(METRE, wanted);
        use.move(number, place);
    };
    element.addEventListener("click", () => use.choose(number));
    element.addEventListener("focus", () => use.choose(number));
    element.addEventListener("keydown", event => {
        const by = (KEYS[event.key] ?? 0) * (event.shiftKey ? 10 : 1);
        if (event.key === "Delete") use.remove(number);
        else if (by && number) set(place + by);
        else return;
        event.preventDefault();
        event.stopPropagation();
    });
    element.addEventListener("pointerdown", event => {
        use.choose(number);
        if (number) element.setPointerCapture(event.pointerId);
    });
    element.addEventListener("pointermove", event => {
        if (!element.hasPointerCapture(event.pointerId)) return;
        const box = root.getBoundingClientRect(), at = (event.clientX - box.left) * WIDTH / box.width;
        set(METRE * Math.round(reach * (at - LEFT) / (WIDTH - LEFT - RIGHT) / METRE));
    });
    mark(group.kind);
    move(place);
    return {
        element,
        mark,
        move: to => {
            place = to;
            move(to);
        }
    };
}
