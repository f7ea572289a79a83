// Cutting the power: at once, or within the next write, where of each open sector one chooses what is left of it.
import {at, make, show} from "./dom";
import {Asked, Left, openAt} from "./life";

export interface Cutting {
    now(): void;
    prepare(): Asked[];
    within(list: Asked[], index: number, left: Left[]): void
}

/** The sectors of a slot, the first of which is its gate. */
const SLOT_SECTORS = 6;

function nameOf(one: Asked|undefined): string {
    if (!one?.request.isWrite) return "sync: the sectors written before it are still open";
    const { sector, sectors } = one.request, isGate = (sector - 1) % SLOT_SECTORS === 0;
    const what = !isGate               ? "head and records of the block"
        : one.bytes.some(byte => byte) ? "the gate of the block"
                                       : "closes the gate of the slot";
    return `write ${sectors} sector${sectors > 1 ? "s" : ""} from sector ${sector} on: ${what}`;
}

export function askHow(cutting: Cutting): void {
    const dialog = at<HTMLDialogElement>("cutting");
    const now = make("button", {
        id: "cut-now",
        click: () => {
            dialog.close();
            cutting.now();
        }
    },
        "Now, between two writes");
    const within = make("button", { id: "cut-within", click: () => choose(cutting) }, "Within the next write…");
    const not = make("button", { click: () => dialog.close() }, "Not at all");
    show("cut-choices",
        make("p", {},
            "Power may be lost at any moment. An output leaves the unit only after the last sync of its block."),
        make("div", { class: "buttons" }, now, within, not));
    dialog.showModal();
}

function choose(cutting: Cutting): void {
    const dialog = at<HTMLDialogElement>("cutting"), list = cutting.prepare();
    const sectors = make("div", { class: "sectors" }), choices: HTMLSelectElement[] = [];
    let index = 0;
    const offer = (): void => {
        const open = list[openAt(list, index)];
        choices.length = 0;
        sectors.replaceChildren();
        for (let n = 0; open && n < open.request.sectors; n++) {
            const select = make("select", { class: "left" }, make("option", { value: "old" }, "old"),
                make("option", { value: "new" }, "new"), make("option", { value: "foreign" }, "foreign bytes"));
            choices.push(select);
            sectors.append(make("label", {}, `sector ${open.request.sector + n} `, select));
        }
        if (!open) sectors.append("Nothing is open here.");
    };
    const requests =
        make("fieldset", {}, make("legend", {}, "At which request?"),
            ...list.map((_, n) =>
                            make("div", {},
                                make(
                                    "label", {}, make("input", {
                                        type: "radio",
                                        name: "request",
                                        value: n,
                                        checked: n === 0,
                                        change: () => {
                                            index = n;
                                            offer();
                                        }
                                    }),
                                    ` ${n + 1}. ${nameOf(list[n])}`))));
    const cut = make("button", {
        id: "cut-here",
        class: "danger",
        click: () => {
            dialog.close();
            cutting.within(list, index, choices.map(select => select.value as Left));
        }
    },
        "Cut here");
    offer();
    show("cut-choices", make("p", {}, "The next batch is prepared: these are its requests, in their order."), requests,
        make("p", {}, "What is found of the sectors that are open:"), sectors, make("div", { class: "buttons" }, cut));
}
