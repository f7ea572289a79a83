// The steps of a start of mission, and which of them are done: by what the head of the newest block keeps; what is
// owed; and which buttons would have no effect now, by the driver's table (tools/dev/tables) and what the unit says.
import {at, make, say, show} from "./dom";
import {Kept} from "./layouts";
import {IDLE, MISSION, modeIn, OWED} from "./texts";

const VALID = 1, NOT_REVALIDATED = 32;

/** The steps, each with a place for its button. */
export function showMission(): void {
    const step = (n: number): Node => make("li", { id: `mission-${n}` }, make("span", { id: `mission-said-${n}` }));
    show("mission", ...MISSION.map((_, n) => step(n)),
        make("li", { id: "mission-all" }));
}

/** What is known where a button is judged: nothing while power is off. */
export interface Now {
    mode: number;
    brake: number;
    indications: number;
    stands: boolean;
    kept: Kept
}

export function showSteps({kept, indications}: Now): void {
    const done =
        [kept.identity !== null, kept.levelStatus === VALID, kept.train !== null, !(indications & NOT_REVALIDATED)];
    for (const [n, is] of done.entries()) {
        at(`mission-${n}`).className = is ? "done" : "owes";
        say(`mission-said-${n}`, MISSION[n]?.[Number(is)] ?? "");
    }
}

/** Why a button would have no effect now; nothing where it may have one. */
function reasonOf(id: string, now: Now|null): string {
    if (!now) return IDLE.off;
    const { mode, stands, brake, indications, kept } = now, rule = IDLE.modes[id];
    if (id === "full" || id === "heed")
        return stands && brake ? (indications & NOT_REVALIDATED ? IDLE.startFirst : IDLE.braked) : "";
    if (rule && !rule.includes(mode)) return IDLE.mode(modeIn(rule), modeIn([mode]));
    if (rule && !stands && id !== "override") return IDLE.moves;
    const unknown = [
        ["confirm-1", kept.identity === null], ["confirm-2", kept.runningNumber === null],
        ["confirm-3", kept.train === null], ["confirm-4", kept.levelStatus === 0]
    ].some(([name, is]) => name === id && is === true);
    return unknown ? IDLE.unknown : "";
}

/** Greys the buttons that would have no effect now, each with the reason. */
export function greyOut(now: Now|null): void {
    for (const id of ["full", "heed", ...Object.keys(IDLE.modes)]) {
        const button = document.getElementById(id);
        if (!button) continue;
        const reason = reasonOf(id, now), key = button.dataset["key"] ?? "";
        if (button.getAttribute("aria-disabled") === String(reason !== "") && button.dataset["why"] === reason)
            continue;
        button.setAttribute("aria-disabled", String(reason !== ""));
        button.dataset["why"] = reason;
        button.title = [reason, key].filter(text => text).join("; ");
    }
}

/** The acknowledgements that indications ask for: the kind of a scenario's action, the indication, and the text. */
export function owedIn(indications: number): [number, number, string][] {
    return OWED.filter(([, bit]) => indications & bit);
}
