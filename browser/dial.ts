// The speed dial, with the colours, hook and arcs that the driver of a European train knows (ERA's DMI). The drawing is
// our own. Limit, target speed and release speed are the unit's.
import {svg} from "./dom";
import {AHEAD, NATIONAL_RELEASE, RELEASE} from "./texts";
import {Why} from "./layouts";

export interface Shown {
    /** NaN where it isn't known. */
    speed: number;
    /** Null where the record has none. */
    limit: number|null;
    target: number|null;
    release: number|null;
    brake: number;
    isTooFast: boolean
}
const GREY = "#c3c3c3", DARK_GREY = "#555555", YELLOW = "#dfdf00", ORANGE = "#ea9100", RED = "#bf0002",
      WHITE = "#ffffff";
const SWEEP = 144, OUTER = 137, WIDTH = 9, HOOK = 20;

/** How far the dial of a journal reaches. */
export function scaleOf(most: number): number { return most > 250_000 ? 400 : most > 180_000 ? 250 : 180; }

/** What the dial shows of an output, and of why it is so. */
export function shownOf(speed: number, limit: number|null, brake: number, indications: number, why: Why|null): Shown {
    const cause = why ? why.limitCause : 0, isRelease = cause >= RELEASE && cause <= NATIONAL_RELEASE;
    return {
        speed,
        limit,
        brake,
        isTooFast: (indications & 64) !== 0,
        release: isRelease ? limit : null,
        target: why && cause >= AHEAD && !isRelease ? why.causeSpeed : null
    };
}

/** The colour of the needle, and of the part of the arc that a speed above the limit covers. */
export function needle(shown: Shown): string {
    if (shown.brake && shown.speed > 0) return RED;
    if (shown.isTooFast) return ORANGE;
    if (shown.release !== null) return YELLOW;
    if (shown.target === null) return GREY;
    return shown.speed > shown.target ? YELLOW : WHITE;
}

export class Dial {
    private readonly arcs = svg("g");
    private readonly hand = svg("g", { class: "hand" });
    private readonly pointer = svg("path", { d: "M-4.5 0 L-4.5 -82 L-1.5 -105 L1.5 -105 L4.5 -82 L4.5 0 Z" });
    private readonly hub = svg("circle", { r: 25 });
    private readonly digits = svg("text", { class: "digits", "text-anchor": "middle", dy: 7 });
    private readonly scale = svg("g");
    private most = 0;

    constructor(root: Element) {
        this.hand.append(this.pointer);
        root.append(this.scale, this.arcs, this.hand, this.hub, this.digits);
        this.setScale(180);
    }

    /** The dial reaches to this many km/h. */
    setScale(most: number): void {
        if (most === this.most) return;
        this.most = most;
        const each = most > 250 ? 20 : 10, numbered = most > 250 ? 100 : most > 180 ? 50 : 20;
        const parts: Element[] = [];
        for (let v = 0; v <= most; v += each) {
            const isNumbered = v % numbered === 0, [x1, y1] = this.point(v, 125);
            const [x2, y2] = this.point(v, isNumbered ? 104 : 111);
            parts.push(svg("line", { x1, y1, x2, y2, class: "tick" }));
            if (isNumbered) {
                const [x, y] = this.point(v, 89);
                parts.push(svg("text", { x, y: y + 5, "text-anchor": "middle", class: "tick-text" }, String(v)));
            }
        }
        this.scale.replaceChildren(...parts);
    }

    private angle(kmh: number): number {
        return (-SWEEP + 2 * SWEEP * Math.min(Math.max(kmh || 0, 0), this.most) / this.most) * Math.PI / 180;
    }
    private point(kmh: number, radius: number): [number, number] {
        return [radius * Math.sin(this.angle(kmh)), -radius * Math.cos(this.angle(kmh))];
    }

    private arc(from: number, to: number, radius: number, width: number, colour: string): Element|null {
        if (to <= from) return null;
        const [x1, y1] = this.point(from, radius), [x2, y2] = this.point(to, radius);
        const isLarge = this.angle(to) - this.angle(from) > Math.PI ? 1 : 0;
        return svg("path", {
            d: `M${x1} ${y1} A${radius} ${radius} 0 ${isLarge} 1 ${x2} ${y2}`,
            fill: "none",
            stroke: colour,
            "stroke-width": width
        });
    }

    /** The arcs of a limit, with the target and the speed above it. */
    private arcsOf(shown: Shown, limit: number): (Element|null)[] {
        const speed = shown.speed / 1000, middle = OUTER - WIDTH / 2, parts: (Element|null)[] = [];
        const from = shown.target === null ? limit : Math.min(shown.target / 1000, limit);
        parts.push(this.arc(0, from, middle, WIDTH, shown.release === null ? DARK_GREY : YELLOW));
        parts.push(this.arc(from, limit, middle, WIDTH, YELLOW));
        if (shown.isTooFast)
            parts.push(this.arc(limit, speed, middle - HOOK / 4, WIDTH + HOOK / 2, shown.brake ? RED : ORANGE));
        if (shown.release !== null) parts.push(this.arc(0, shown.release / 1000, OUTER + 4, 4, GREY));
        const hook = shown.target === null ? GREY : YELLOW, degree = this.most / SWEEP / 2;
        parts.push(
            this.arc(Math.max(0, limit - 3 * degree), Math.max(limit, 3 * degree), OUTER - HOOK / 2, HOOK, hook));
        return parts;
    }

    show(shown: Shown): void {
        const speed = shown.speed / 1000, parts = shown.limit === null ? [] : this.arcsOf(shown, shown.limit / 1000);
        this.arcs.replaceChildren(...parts.filter((part): part is Element => part !== null));
        const colour = needle(shown);
        this.hand.setAttribute("visibility", Number.isNaN(speed) ? "hidden" : "visible");
        this.hand.style.transform = `rotate(${this.angle(speed) * 180 / Math.PI}deg)`;
        this.pointer.setAttribute("fill", colour);
        this.hub.setAttribute("fill", colour);
        this.digits.setAttribute("fill", colour === RED ? WHITE : "#031122");
        this.digits.textContent = Number.isNaN(speed) ? "?" : String(Math.round(speed));
    }
}

/** The bar that shows how far the target is: to 100 m evenly, and then to 1,000 m by the logarithm. */
export function distanceBar(root: Element, metres: number|null): void {
    const height = (m: number): number => m <= 100 ? 30 * m / 100 : 30 + 150 * Math.log10(Math.min(m, 1000) / 100);
    const marks = [0, 100, 200, 500, 1000].map(
        m => svg("g", {},
            svg("line", { x1: 2, x2: m % 500 ? 10 : 14, y1: 196 - height(m), y2: 196 - height(m), class: "tick" }),
            svg("text", { x: 32, y: 200 - height(m), class: "tick-text small" }, String(m))));
    const bar = metres === null ? [] : [
        svg("rect",
            { x: 17, width: 10, y: 196 - height(Math.max(0, metres)), height: height(Math.max(0, metres)), fill: GREY })
    ];
    root.replaceChildren(...marks, ...bar);
}
