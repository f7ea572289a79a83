// The signals of all lives of an image over one axis, with zoom, pan and a cursor. Each change is drawn with the next
// frame.
import {at, make, say, svg} from "./dom";
import {BOTTOM, HEIGHT, LEFT, paint, plotWidth, Scene, TOP} from "./drawing";
import {AskedImage} from "./image";
import {brakeText, count, levelText, modeName, permittedText, placeText, seconds, speedText} from "./shown";
import {AxisKind, axisOf, nearest} from "./signals";
import {VIEW} from "./wording";

const KINDS: AxisKind[] = ["moment", "place", "event"];
const ZOOM = 1.25, PAN = 0.1, CLICK = 4, NARROWEST = 0.02, PAD = 0.01, FAR = 1e9;

export class Viewer {
    private image: AskedImage|null = null;
    /** What is drawn: the window is from `from` to `to`. */
    scene: Scene|null = null;
    private frame = 0;
    /** The places of pointers that are pressed, and how far the first of them moved. */
    private readonly pointers = new Map<number, number>();
    private moved = 0;
    private readonly root = at("viewer-chart") as unknown as SVGSVGElement;
    private readonly cursor = svg("line", { y1: TOP, y2: BOTTOM, class: "cursor" });

    /** `pick` chooses a record. */
    constructor(private readonly pick: (index: number) => void) {
        const kind = at<HTMLSelectElement>("viewer-axis");
        kind.append(...KINDS.map(value => make("option", { value }, VIEW.axes[value])));
        kind.addEventListener("change", () => this.setAxis(kind.value as AxisKind));
        const acts: [string, () => void][] = [
            ["in", () => this.zoom(1 / ZOOM ** 2)], ["out", () => this.zoom(ZOOM ** 2)], ["left", () => this.pan(-PAN)],
            ["right", () => this.pan(PAN)], ["all", () => this.showAll()], ["life", () => this.showLife()]
        ];
        for (const [name, act] of acts) at(`viewer-${name}`).addEventListener("click", act);
        this.root.addEventListener("keydown", event => this.press(event));
        this.root.addEventListener("wheel", event => this.roll(event), { passive: false });
        this.root.addEventListener("pointerdown", event => this.begin(event));
        this.root.addEventListener("pointermove", event => this.drag(event));
        for (const end of ["pointerup", "pointercancel"] as const)
            this.root.addEventListener(end, event => this.end(event));
        new ResizeObserver(() => this.draw()).observe(this.root);
    }

    /** Shows an image that is read; without a clock event all moments are 0, and it is shown by events. */
    take(image: AskedImage|null): void {
        this.image = image;
        this.scene = null;
        this.root.replaceChildren();
        for (const name of ["viewer-said", "viewer-at"]) say(name, "");
        if (image) this.setAxis(image.signals?.moment.some(one => one > 0) ? "moment" : "event");
    }

    private setAxis(kind: AxisKind): void {
        const { signals = null, lives = [], interventions = [] } = this.image ?? {};
        at<HTMLSelectElement>("viewer-axis").value = kind;
        if (!signals) return;
        const commands = interventions.filter(one => !one.isPowerUp).flatMap(one => one.steps);
        this.scene = { signals, axis: axisOf(kind, signals, lives), commands, from: 0, to: 1, width: 0 };
        this.showAll();
    }

    // ---- the window

    private setWindow(from: number, width: number): void {
        const { scene } = this;
        if (!scene) return;
        const { low, high, per } = scene.axis, pad = PAD * (high - low);
        const seen = Math.min(high - low + 2 * pad, Math.max(per * NARROWEST, width));
        scene.from = Math.max(low - pad, Math.min(high + pad - seen, from + (width - seen) / 2));
        scene.to = scene.from + seen;
        this.draw();
    }

    showAll(): void {
        const { low, high } = this.scene?.axis ?? { low: 0, high: 0 };
        this.setWindow(low - PAD * (high - low), (1 + 2 * PAD) * (high - low));
    }

    private showLife(): void {
        const { place } = this, life = this.scene?.axis.lives.find(({ low, high }) => low <= place && place <= high);
        if (life) this.setWindow(life.low, life.high - life.low);
    }

    /** Makes the window so many times as wide; a place of it stays where it is. */
    zoom(times: number, place?: number): void {
        const { from, to } = this.scene ?? { from: 0, to: 0 }, fixed = place ?? (from + to) / 2;
        this.setWindow(fixed - (fixed - from) * times, (to - from) * times);
    }

    /** Moves the window by a part of its width. */
    pan(part: number): void {
        const { from, to } = this.scene ?? { from: 0, to: 0 };
        this.setWindow(from + part * (to - from), to - from);
    }

    /** The cursor goes to the chosen record; the window follows where that is outside. */
    choose(): void {
        const { scene, place } = this;
        if (scene && (place < scene.from || place > scene.to))
            this.setWindow(place - (scene.to - scene.from) / 2, scene.to - scene.from);
        this.moveCursor();
    }

    /** Where the cursor is; NaN where its record has no place on the axis. */
    private get place(): number { return this.scene?.axis.x[this.image?.index ?? 0] ?? NaN; }

    // ---- pointers and keys

    private placeOf(scene: Scene, event: { clientX: number }): number {
        const box = this.root.getBoundingClientRect(), { width } = this.root.viewBox.baseVal;
        const x = (event.clientX - box.left) * width / (box.width || 1);
        return scene.from + (scene.to - scene.from) * (x - LEFT) / plotWidth(width);
    }

    private roll(event: WheelEvent): void {
        const { scene } = this;
        if (!scene) return;
        const { axis: { low, high }, from, to } = scene;
        if (to - from >= (1 + 1.9 * PAD) * (high - low) && event.deltaY > 0) return;  // (the page scrolls)
        event.preventDefault();
        if (Math.abs(event.deltaX) > Math.abs(event.deltaY)) this.pan(event.deltaX / 600);
        else this.zoom(ZOOM ** (event.deltaY / 60), this.placeOf(scene, event));
    }

    private begin(event: PointerEvent): void {
        if (!this.pointers.size) this.moved = 0;
        this.pointers.set(event.pointerId, event.clientX);
        if (event.isTrusted) this.root.setPointerCapture(event.pointerId);
    }

    private drag(event: PointerEvent): void {
        const { pointers, scene } = this, before = pointers.get(event.pointerId);
        if (before === undefined || !scene) return;
        const [other] = [...pointers].filter(([id]) => id !== event.pointerId);
        this.moved += Math.abs(event.clientX - before);
        if (other) {
            const [, fixed] = other, times = Math.abs(before - fixed) / Math.max(1, Math.abs(event.clientX - fixed));
            this.zoom(times, this.placeOf(scene, { clientX: fixed }));
        } else if (this.moved > CLICK)
            this.pan((before - event.clientX) / (this.root.getBoundingClientRect().width || 1));
        pointers.set(event.pointerId, event.clientX);
    }

    private end(event: PointerEvent): void {
        const isOne = this.pointers.size === 1, { scene } = this;
        if (!this.pointers.delete(event.pointerId) || !isOne || event.type !== "pointerup" || this.moved > CLICK)
            return;
        const index = scene && nearest(scene.axis, this.placeOf(scene, event));
        if (index !== null) this.pick(index);
    }

    private press(event: KeyboardEvent): void {
        const acts: Record<string, () => void> = {
            "+": () => this.zoom(1 / ZOOM),
            "=": () => this.zoom(1 / ZOOM),
            "-": () => this.zoom(ZOOM),
            "0": () => this.showAll(),
            ArrowLeft: () => this.pan(-PAN),
            ArrowRight: () => this.pan(PAN),
            Home: () => this.pan(-FAR),
            End: () => this.pan(FAR)
        };
        const act = acts[event.key];
        if (!act || event.ctrlKey || event.altKey || event.metaKey) return;
        act();
        event.preventDefault();
    }

    // ---- the picture

    /** Draws with the next frame. */
    draw(): void {
        if (!this.frame) this.frame = requestAnimationFrame(() => this.drawNow());
    }

    drawNow(): void {
        cancelAnimationFrame(this.frame);
        this.frame = 0;
        const { scene } = this;
        if (!scene) return;
        const { axis: { kind, x, leftOut } } = scene;
        scene.width = Math.min(1600, Math.max(300, this.root.clientWidth || 760));
        const [parts, seen] = paint(scene);
        this.root.setAttribute("viewBox", `0 0 ${scene.width} ${HEIGHT}`);
        this.root.replaceChildren(svg("title", {}, at("charts-title").textContent ?? ""), ...parts, this.cursor);
        this.moveCursor();
        say("viewer-said", VIEW.seen(count(seen), count(x.length)) + (leftOut && kind === "place" ? VIEW.leftOut(leftOut) : ""));
    }

    private moveCursor(): void {
        const { place: x, scene, image } = this;
        if (!scene || !image) return;
        say("viewer-at", cursorText(image));
        const isSeen = x >= scene.from && x <= scene.to;
        this.cursor.setAttribute("visibility", isSeen ? "visible" : "hidden");
        if (!isSeen) return;
        const place = LEFT + plotWidth(scene.width) * (x - scene.from) / (scene.to - scene.from);
        for (const end of ["x1", "x2"]) this.cursor.setAttribute(end, place.toFixed(1));
    }
}

/** All signals at the chosen record. */
function cursorText({ records, speeds, index }: AskedImage): string {
    if (!records?.count) return "";
    const { limit, brake, mode, level, front, moment } = records.get(index);
    return VIEW.cursor(speedText(speeds[index] ?? NaN), permittedText(limit), brakeText(brake), modeName(mode),
        levelText(level), placeText(front), seconds(moment));
}
