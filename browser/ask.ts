// Asking an image: its file goes to the worker, and what that reports is shown.
import {imageTexts, replayText, slotsVerdict, slotText} from "./answers";
import {briefRows} from "./brief";
import {Calls, END} from "./calls";
import {misfit, nameOf, whenChosen} from "./choosing";
import {at, make, say, show} from "./dom";
import {short} from "./escaping";
import {EventView} from "./eventview";
import {offerToSave} from "./evidence";
import {AskedImage, Given} from "./image";
import {Lists} from "./lists";
import {lastOf} from "./lives";
import {Order, Report} from "./messages";
import {mark, wholeOf} from "./numbers";
import {drawRing, legendOf} from "./ring";
import {count, keptTexts} from "./shown";
import {BySlots, imageSize} from "./slots";
import {choose} from "./tabs";
import {ENTRY, SAY, STATUSES} from "./texts";
import {Viewer} from "./viewer";

const LINK_MS = 100;

export class Ask {
    /** The number of the last image, or refusal. */
    id = 0;
    /** The image that is read, or shown. */
    image: AskedImage|null = null;
    private linking = 0;
    /** The link that this page wrote itself, for the image before. */
    private ownLink = "";
    /** Whether the answers take the focus once they are there. */
    private takesFocus = false;
    private readonly event: EventView;
    private readonly lists = new Lists(event => this.chooseEvent(event));
    readonly viewer = new Viewer(index => this.choose(index));
    private readonly bySlots = new BySlots((given, slots, isEntered) =>
        this.read({...given, slots: isEntered ? slots : null, first: imageSize(slots) }));

    constructor(private readonly worker: { postMessage(order: Order): void }, calls: Calls) {
        this.event = new EventView(worker, calls);
        whenChosen(files => void this.take(files));
        at("scrub").addEventListener("input", () => this.choose(Number(at<HTMLInputElement>("scrub").value)));
        at("event-number").addEventListener("change", () => this.enterEvent(at<HTMLInputElement>("event-number")));
        const moves: [string, () => number][] = [
            ["first", () => 0], ["before", () => this.index - 1], ["after", () => this.index + 1],
            ["last", () => Infinity]
        ];
        for (const [id, to] of moves) at(id).addEventListener("click", () => this.choose(to()));
        at("print").addEventListener("click", () => print());
        offerToSave(() => this.isDone ? this.image : null);
        addEventListener("hashchange", () => this.followHash());
    }

    // ---- what is handed over

    /** Says why something isn't used; what is shown stays. */
    private refuse(sentence: string): void {
        this.id++;
        say("ask-error", sentence);
    }

    private async take(files: File[]): Promise<void> {
        choose("ask");
        const [file] = files, why = files.length > 1 ? SAY.oneOnly(files.length) : file && await misfit(file);
        if (why) this.refuse(why);
        else if (file) this.read({ name: nameOf(file), file, slots: null, first: null });
    }

    /** Asks the image of the desk. */
    ask(name: string, file: Blob): void {
        this.read({ name, file, slots: null, first: null });
        this.takesFocus = true;
    }

    /** Reads an image instead of the one before. */
    private read(given: Given): void {
        this.bySlots.forget();
        this.takesFocus = false;
        say("ask-error", "");
        say("ask-progress", SAY.reading);
        this.showNew(new AskedImage(++this.id, given));
        const { file, slots, first } = given;
        this.worker.postMessage({ kind: "image", id: this.id, file, slots, first });
    }

    // ---- what the worker reports

    hear(report: Report): void {
        const { image } = this;
        if (!image || report.id !== image.id) return;
        image.hear(report);
        if (report.kind === "failed") this.giveUp(SAY.noImage(image.name, report.says));
        else if (report.kind === "facts" && !image.facts)
            this.giveUp(SAY.noImage(image.name, whyText(report.status)) + this.bySlots.offer(image.given));
        else if (report.kind === "facts") this.showFacts(image);
        else if (report.kind === "records") this.showRecords(image);
        else if (report.kind === "slots") this.showSlots(image);
        else if (report.kind === "why") this.event.show(image);
        else if (report.kind === "replay" || report.kind === "causes") this.showAnswers(image);
        else if (report.kind === "progress")
            say("ask-progress", SAY.progress(report.done, report.all, report.what));
        else if (report.kind === "done") say("ask-progress", "");
    }

    private giveUp(why: string): void {
        this.showNew(null);
        say("ask-progress", "");
        this.refuse(why);
    }

    // ---- what is shown of an image

    /** Shows nothing yet of an image. */
    private showNew(image: AskedImage|null): void {
        this.image = image;
        clearTimeout(this.linking);
        at("answers").hidden = true;
        for (const part
                 of ["brief", "braking", "lives", "interventions", "hex", "fields", "kept", "ring", "ring-legend"])
            show(part);
        for (const part of ["replay-said", "slot-said", "verdict", "event-said"]) say(part, "");
        this.viewer.take(null);
    }

    private showFacts(image: AskedImage): void {
        at("answers").hidden = false;
        show("facts",
            ...imageTexts(image).flatMap(([what, value]) => [make("dt", {}, what), make("dd", {}, value)]));
    }

    private showRecords(image: AskedImage): void {
        const { records } = image, scrub = at<HTMLInputElement>("scrub");
        if (!records) return;
        this.showFacts(image);
        this.viewer.take(image);
        image.index = lastOf(image.interventions)?.first ?? 0;
        if (image.status !== END) this.refuse(this.bySlots.whyUnread(image, whyText(image.status)));
        if (location.hash === this.ownLink) this.link("");
        scrub.max = String(Math.max(0, records.count - 1));
        scrub.disabled = records.count === 0;
        this.lists.showBraking(image.braking);
        this.showAnswers(image);
        this.followHash();
        if (!records.count) say("event-said", SAY.noRecord);
        if (this.takesFocus) at("brief-title").focus();
        this.takesFocus = false;
    }

    private showSlots(image: AskedImage): void {
        const { slots, newest } = image;
        show("ring-legend", ...legendOf(slots));
        this.showBrief(image);
        this.showVerdict(image);
        if (newest)
            show("kept",
                ...keptTexts(newest.kept).flatMap(([name, value]) => [make("dt", {}, name), make("dd", {}, value)]));
        const bad = slots.findIndex(slot => !slot.isSound);
        this.chooseSlot(image, bad >= 0 ? bad : null);
        this.event.show(image);
    }

    private showVerdict(image: AskedImage): void {
        const [says, kind] = slotsVerdict(image);
        say("verdict", says);
        at("verdict").className = `verdict ${kind}`;
    }

    private chooseSlot(image: AskedImage, slot: number|null): void {
        const { slots, facts, heads } = image, found = slot === null ? undefined : slots[slot];
        drawRing(at("ring") as unknown as SVGSVGElement, slots, facts?.newest ?? 0, slot,
            n => this.chooseSlot(image, n));
        say("slot-said", found && slot !== null ? slotText(found, slot, heads.get(found.number)) : "");
    }

    /** What the replay and the causes came to. */
    private showAnswers(image: AskedImage): void {
        const { records, replays, unreadable } = image;
        if (!records) return;
        if (replays) {
            this.lists.showLives(records, replays);
            say("replay-said", replayText(replays, unreadable));
            this.showVerdict(image);
        }
        this.lists.showInterventions(image, records);
        this.showBrief(image);
        this.event.show(image);
    }

    private showBrief(image: AskedImage): void {
        const { records, lives, speeds, interventions, trips, isWhole, verdict, newest, unwritten } = image;
        if (!records) return;
        const known = { lives, speeds, interventions, trips, isWhole, verdict, newest, unwritten };
        const rows = briefRows({...known, records, causes: image.counted });
        show("brief", ...rows.flatMap(([name, says]) => [make("dt", {}, name), make("dd", {}, ...says)]));
    }

    // ---- records

    private followHash(): void {
        const event = /^#event=(\d+)$/.exec(location.hash)?.[1];
        if (event !== undefined) this.chooseEvent(Number(event));
        else this.choose(this.index);
    }

    private link(hash: string): void {
        this.ownLink = hash;
        history.replaceState(null, "", hash || location.pathname);
    }

    private enterEvent(field: HTMLInputElement): void {
        const event = wholeOf(field.value);
        mark(field, event !== null);
        if (event === null) say("event-error", ENTRY.event(short(field.value)));
        else this.chooseEvent(event);
    }

    chooseEvent(event: number): void {
        const index = this.records?.find(event) ?? null;
        if (index !== null) this.choose(index);
        else say("event-error", `Event ${count(event)} is in no block of the journal that can be read.`);
    }

    choose(index: number): void {
        const { image, records } = this;
        if (!image || !records?.count) return;
        image.index = Math.max(0, Math.min(records.count - 1, index));
        const event = records.event(image.index);
        at<HTMLInputElement>("scrub").value = String(image.index);
        at<HTMLInputElement>("event-number").value = String(event);
        mark(at("event-number"), true);
        say("event-error", "");
        // (a browser takes few links in a short time, so the link waits until the scrubber stands)
        clearTimeout(this.linking);
        this.linking = setTimeout(() => this.link(`#event=${event}`), LINK_MS) as unknown as number;
        this.event.show(image);
        this.viewer.choose();
    }

    // ---- what tests read

    get records(): AskedImage["records"] { return this.image?.records ?? null; }
    get index(): number { return this.image?.index ?? 0; }
    /** Whether everything about the image is shown. */
    get isDone(): boolean { return this.image?.isDone ?? false; }
    get findings(): object { return this.image?.findings ?? { facts: null }; }
}

function whyText(status: number): string { return STATUSES[status] ?? `status ${status}`; }
