// A track of one's own: groups of balises on a line, which are dragged or moved by keys, and their telegrams by their
// variables, as a text or one by one. What the unit refuses of a telegram, or skips, is marked as its calls say.
import {Calls} from "./calls";
import {at, make, say, show} from "./dom";
import {Drive} from "./drive";
import {Form} from "./form";
import {Wrong} from "./grammar";
import {judge, Kind, textOf} from "./judging";
import {Group} from "./life";
import {drawLine, Handle} from "./line";
import {metres} from "./shown";
import {mark, scaledOf} from "./numbers";
import {EDIT, ENTRY, SAY} from "./texts";
import {addTrack} from "./tracks";

export interface Edited {
    /** In cm; the one at 0 is what the train hears where it begins. */
    at: number;
    spacing: number;
    balises: string[]
}
const MOST_AT = 100_000_000, MOST_SPACING = 1_200, MOST_BALISES = 8, METRE = 100;

/** The place or distance in a field, in cm; null where it is outside its limits, which is said. */
function enteredMetres(field: HTMLInputElement, most: number): number|null {
    const number = scaledOf(field.value, METRE), isOne = number !== null && number >= 1 && number <= most;
    mark(field, isOne);
    const [from, to] = [1 / METRE, most / METRE].map(metres => metres.toLocaleString("en"));
    say("editor-error", isOne ? "" : ENTRY.place(from ?? "", to ?? ""));
    return isOne ? number : null;
}

export class Editor {
    private groups: Edited[] = [];
    private chosen = 0;
    private name = "";
    private handles: Handle[] = [];

    constructor(private readonly calls: Calls, private readonly drive: Drive) {
        at("edit").addEventListener("click", () => this.toggle());
        at("add-group").addEventListener("click", () => this.add());
        at("remove-group").addEventListener("click", () => this.remove());
        at("add-balise").addEventListener("click", () => this.addBalise());
        at("drive-edited").addEventListener("click", () => this.run());
        const place = at<HTMLInputElement>("group-at"), spacing = at<HTMLInputElement>("group-spacing");
        place.addEventListener("change", () => {
            const number = enteredMetres(place, MOST_AT);
            if (number !== null) this.move(this.chosen, number);
        });
        spacing.addEventListener("change", () => {
            const one = this.groups[this.chosen], number = enteredMetres(spacing, MOST_SPACING);
            if (one && number !== null) one.spacing = number;
        });
    }

    private toggle(): void {
        const editor = at("editor"), isShut = editor.hidden;
        if (isShut) this.take();
        editor.hidden = !isShut;
        at("edit").setAttribute("aria-expanded", String(isShut));
        if (isShut) this.handles[this.chosen]?.element.focus();
    }

    /** The track that is driven, to be edited. */
    private take(): void {
        const { scenario, name } = this.drive.track, begin: string[] = [];
        for (const step of scenario.steps) {
            if (!("telegram" in step)) break;
            begin.push(textOf(step.telegram));
        }
        this.name = name;
        const others =
            scenario.groups.map(({ at, spacing, balises }) => ({ at, spacing, balises: balises.map(textOf) }));
        this.groups = [{ at: 0, spacing: 1, balises: begin }, ...others];
        this.chosen = 0;
        this.draw();
    }

    private worst(group: Edited): Kind {
        const kinds = group.balises.map(text => judge(this.calls, text).kind);
        return kinds.includes("bad") ? "bad" : kinds.includes("warn") ? "warn" : "good";
    }

    // ---- the line

    private draw(): void {
        this.handles = drawLine(at("line"), this.groups.map(group => ({...group, kind: this.worst(group) })), {
            choose: n => this.choose(n),
            move: (n, place) => this.move(n, place),
            remove: n => {
                this.choose(n);
                this.remove();
            }
        });
        this.choose(Math.min(this.chosen, this.groups.length - 1));
    }

    private choose(number: number): void {
        this.chosen = number;
        this.handles.forEach(({ element }, n) => element.classList.toggle("chosen", n === number));
        this.showGroup();
    }

    private move(number: number, place: number): void {
        const group = this.groups[number];
        if (group && number && Number.isFinite(place)) {
            group.at = Math.max(1, Math.min(MOST_AT, place));
            this.handles[number]?.move(group.at);
        }
        this.showPlace();
    }

    private add(): void {
        const last = Math.max(...this.groups.map(group => group.at));
        const number =
            this.groups.push(
                { at: Math.min(MOST_AT, last + 200 * METRE), spacing: 3 * METRE, balises: [EDIT.newTelegram] }) -
            1;
        this.chosen = number;
        this.draw();
        this.handles[number]?.element.focus();
    }

    private remove(): void {
        if (!this.chosen) return;
        this.groups.splice(this.chosen, 1);
        this.chosen--;
        this.draw();
        this.handles[this.chosen]?.element.focus();
    }

    // ---- a group

    private showPlace(): void {
        const group = this.groups[this.chosen];
        if (!group) return;
        at<HTMLInputElement>("group-at").value = String(group.at / METRE);
        say("group-title", this.chosen ? EDIT.group(this.chosen, metres(group.at)) : EDIT.begin);
    }

    private showGroup(): void {
        const group = this.groups[this.chosen];
        if (!group) return;
        this.showPlace();
        at<HTMLInputElement>("group-spacing").value = String(group.spacing / METRE);
        for (const id of ["group-at", "group-spacing"]) {
            mark(at(id), true);
            at<HTMLInputElement>(id).disabled = !this.chosen;
        }
        at<HTMLButtonElement>("remove-group").disabled = !this.chosen;
        at<HTMLButtonElement>("add-balise").disabled = group.balises.length >= MOST_BALISES;
        show("balises", ...group.balises.map((text, n) => this.balise(group, text, n)));
    }

    private balise(group: Edited, text: string, number: number): HTMLElement {
        const said = make("p", {}), name = `telegram-${number}`, root = make("div", { class: "form" });
        const field =
            make("textarea", { id: name, rows: 3, spellcheck: "false", "aria-describedby": `${name}-said` }, text);
        const put = (text: string): void => {
            field.value = text;
            field.dispatchEvent(new Event("input"));
        };
        const form = new Form(root, this.calls, digits => put(textOf(digits)));
        const report = (): void => {
            const { digits, says, kind } = judge(this.calls, field.value);
            said.replaceChildren(make("strong", { class: kind }, says), digits && ` ${digits}`);
            form.show(digits);
        };
        said.id = `${name}-said`;
        field.addEventListener("input", () => {
            group.balises[number] = field.value;
            report();
            this.handles[this.chosen]?.mark(this.worst(group));
        });
        report();
        const remove = make("button", { click: () => this.removeBalise(group, number) }, EDIT.removeBalise(number + 1));
        return make("div", { class: "balise-text" },
            make("label",
                { for: name
                },
                EDIT.balise(number + 1)),
            field, said, make("details", { open: number === 0 }, make("summary", {}, EDIT.variables(number + 1)), root),
            make("div", { class: "buttons" }, remove));
    }

    private addBalise(): void {
        const group = this.groups[this.chosen];
        if (!group || group.balises.length >= MOST_BALISES) return;
        group.balises.push(EDIT.newTelegram);
        this.showGroup();
        at(`telegram-${group.balises.length - 1}`).focus();
    }

    private removeBalise(group: Edited, number: number): void {
        group.balises.splice(number, 1);
        this.showGroup();
        this.handles[this.chosen]?.mark(this.worst(group));
    }

    // ---- driving it

    /** The groups as a scenario has them; a telegram that can't be written is reported. */
    private built(group: Edited): string[] {
        return group.balises.map((text, n) => {
            const { digits, says } = judge(this.calls, text);
            if (!digits) throw new Wrong(EDIT.cantDrive(metres(group.at), n + 1, says));
            return digits;
        });
    }

    private run(): void {
        say("editor-error", "");
        try {
            const [begin, ...others] = this.groups;
            const groups: Group[] =
                others.filter(group => group.balises.length)
                    .map(group => ({ at: group.at, spacing: group.spacing, balises: this.built(group) }));
            const steps = begin ? this.built(begin).map(telegram => ({ telegram })) : [];
            const name = this.name.startsWith(EDIT.own) ? this.name : EDIT.own + this.name;
            this.drive.board(addTrack({ name, text: SAY.ownText, scenario: { groups, steps }, restart: null }));
            this.name = name;
        } catch (error) {
            if (!(error instanceof Wrong)) throw error;
            say("editor-error", error.message);
        }
    }
}
