// What lies ahead, as the balises said it that this train heard: a drawing of their fields, which `etcs decode` printed
// when the page was built. The unit's own target is the one that it reports.
import {svg} from "./dom";
import {Heard} from "./course";
import {SCALES, SPEED} from "./quantities";

export interface Packet {
    packet: number;
    fields: [string, number][]
}
export interface Decoded {
    header: Record<string, number>;
    packets: Packet[]
}
interface Area {
    from: number;
    to: number;
    mode: number;
    speed: number
}
interface Restriction {
    number: number;
    from: number;
    to: number;
    speed: number
}
export interface Ahead {
    end: number|null;
    beyond: number|null;
    speeds: [number, number][];
    gradients: [number, number][];
    areas: Area[];
    restrictions: Restriction[];
}
const NO_SPEED = 127, NO_GRADIENT = 255, ENDLESS = 32767;

function scaleOf(packet: Packet): number {
    return SCALES[packet.fields.find(([name]) => name === "Q_SCALE")?.[1] ?? 1] ?? 100;
}

/** The elements of a packet that begin with a field of this name, each with the fields up to the next one. */
export function elements(packet: Packet, first: string): Record<string, number>[] {
    const found: Record<string, number>[] = [];
    for (const [name, value] of packet.fields) {
        if (name === first) found.push({});
        const last = found[found.length - 1];
        if (last && !(name in last)) last[name] = value;
    }
    return found;
}

/** What a place changes, from a place on: places of a profile are counted from the one before. */
function profile(packet: Packet, origin: number, distance: string,
    value: (element: Record<string, number>) => number): [number, number][] {
    let place = origin;
    return elements(packet, distance).map(element => {
        place += scaleOf(packet) * (element[distance] ?? 0);
        return [place, value(element)];
    });
}

/** What the telegrams that were heard said, places in cm of the train's own way. */
export function aheadOf(heard: Heard[], decoded: Record<string, Decoded>): Ahead {
    const ahead: Ahead = { end: null, beyond: null, speeds: [], gradients: [], areas: [], restrictions: [] };
    for (const { place, telegram } of heard) {
        for (const packet of decoded[telegram.toUpperCase()]?.packets ?? []) {
            const scale = scaleOf(packet), fields = new Map(packet.fields);
            if (packet.packet === 12) {
                const sum = packet.fields.reduce(
                    (all, [name, value]) => name === "L_SECTION" || name === "L_ENDSECTION" ? all + value : all, 0);
                ahead.end = place + scale * sum;
                const length = fields.get("D_OL") ?? fields.get("D_DP") ?? 0;
                ahead.beyond = length ? ahead.end + scale * length : null;
                ahead.areas = [];
            } else if (packet.packet === 27) {
                ahead.speeds = [
                    ...ahead.speeds.filter(([at]) => at < place),
                    ...profile(packet, place, "D_STATIC", element => element["V_STATIC"] ?? NO_SPEED)
                ];
            } else if (packet.packet === 21) {
                ahead.gradients = [
                    ...ahead.gradients.filter(([at]) => at < place),
                    ...profile(packet, place, "D_GRADIENT",
                        element =>
                            element["G_A"] === NO_GRADIENT ? NaN : (element["Q_GDIR"] ? 1 : -1) * (element["G_A"] ?? 0))
                ];
            } else if (packet.packet === 65) {
                const from = place + scale * (fields.get("D_TSR") ?? 0);
                ahead.restrictions.push({
                    number: fields.get("NID_TSR") ?? 0,
                    from,
                    to: from + scale * (fields.get("L_TSR") ?? 0),
                    speed: SPEED * (fields.get("V_TSR") ?? 0)
                });
            } else if (packet.packet === 80) {
                let from = place;
                for (const element of elements(packet, "D_MAMODE")) {
                    from += scale * (element["D_MAMODE"] ?? 0);
                    const length = element["L_MAMODE"] ?? 0;
                    ahead.areas.push({
                        from,
                        to: length === ENDLESS ? Infinity : from + scale * length,
                        mode: element["M_MAMODE"] ?? 0,
                        speed: element["V_MAMODE"] ?? NO_SPEED
                    });
                }
            }
        }
    }
    return ahead;
}

const HEIGHT = 300, WIDTH = 300, REACH = 4000;
/** Where a distance ahead is drawn: evenly up to 100 m, and then by the logarithm. */
function y(metres: number): number {
    const m = Math.min(Math.max(metres, 0), REACH);
    return HEIGHT - 14 - (m <= 100 ? 36 * m / 100 : 36 + (HEIGHT - 66) * Math.log(m / 100) / Math.log(REACH / 100));
}

function band(x: number, width: number, from: number, to: number, kind: string): Element|null {
    if (to <= 0 || from >= REACH || to <= from) return null;
    return svg("rect", { x, width, y: y(to), height: Math.max(1, y(from) - y(to)), class: kind });
}

function label(x: number, m: number, text: string, kind = ""): Element|null {
    return m < 0 || m > REACH ? null : svg("text", { x, y: y(m) + 4, class: `plan-text ${kind}` }, text);
}

/** Draws what lies ahead of a place in cm; the target is the unit's own, as a distance in cm and a speed in m/h. */
export function drawPlan(root: Element, ahead: Ahead, place: number, balises: number[],
    target: {distance: number; speed: number}|null): void {
    const parts: (Element|null)[] = [], far = (at: number): number => (at - place) / 100;
    for (const m of [0, 25, 50, 75, 100, 200, 500, 1000, 2000, 4000]) {
        parts.push(svg("line",
            { x1: 36, x2: WIDTH, y1: y(m), y2: y(m), class: m === 0 || m === 100 ? "plan-line strong" : "plan-line" }));
        if (m === 0 || m >= 100)
            parts.push(svg("text", { x: 31, y: y(m) + 4, "text-anchor": "end", class: "plan-text" }, String(m)));
    }
    ahead.gradients.forEach(([at, g], n) => {
        const to = ahead.gradients[n + 1]?.[0] ?? ahead.end ?? Infinity;
        if (Number.isNaN(g)) return;
        parts.push(band(66, 22, far(at), far(to), g < 0 ? "down" : "up"));
        const from = Math.max(0, far(at));
        if (far(to) > 0 && y(from) - y(far(to)) > 14)
            parts.push(label(70, from === 0 ? 12 : from * 1.06,
                (g < 0          ? "−"
                        : g > 0 ? "+"
                                : "") +
                    Math.abs(g),
                "dark"));
    });
    const steps = ahead.speeds.filter(([, v]) => v !== NO_SPEED), most = Math.max(1, ...steps.map(([, v]) => v));
    ahead.speeds.forEach(([at, v], n) => {
        const to = Math.min(ahead.speeds[n + 1]?.[0] ?? Infinity, ahead.end ?? Infinity);
        if (v !== NO_SPEED) parts.push(band(140, 90 * v / most, far(at), far(to), "speed-band"));
    });
    for (const { from, to, mode } of ahead.areas)
        parts.push(band(140, 90, far(from), far(to), mode ? "shunting-band" : "sight-band"));
    for (const { from, to } of ahead.restrictions) parts.push(band(112, 12, far(from), far(to), "restriction-band"));
    ahead.speeds.forEach(([at, v]) => {
        if (v !== NO_SPEED && far(at) > 0) parts.push(label(236, far(at), `${SPEED * v} km/h`));
    });
    for (const { from, speed } of ahead.restrictions)
        if (far(from) > 0) parts.push(label(236, far(from), `restriction ${speed}`, "warn"));
    for (const { from, mode, speed } of ahead.areas) {
        if (far(from) > 0)
            parts.push(label(
                146, far(from), (mode ? "Shunting" : "On Sight") + (speed === NO_SPEED ? "" : ` ${SPEED * speed}`)));
    }
    for (const at of balises)
        if (far(at) >= 0 && far(at) <= REACH)
            parts.push(svg("path", { d: `M46 ${y(far(at))} l9 -5 v10 z`, class: "balise" }));
    if (ahead.end !== null && far(ahead.end) >= 0) {
        parts.push(svg("line", { x1: 140, x2: 234, y1: y(far(ahead.end)), y2: y(far(ahead.end)), class: "end" }),
            label(236, far(ahead.end), "end", "stop"));
    }
    if (ahead.beyond !== null && far(ahead.beyond) >= 0) parts.push(label(258, far(ahead.beyond), "location", "stop"));
    if (target && target.distance >= 0) {
        parts.push(svg("path", { d: `M134 ${y(target.distance / 100)} l-8 -5 v10 z`, class: "target" }));
    }
    root.replaceChildren(...parts.filter((part): part is Element => part !== null));
}
