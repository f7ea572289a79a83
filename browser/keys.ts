// Buttons of the driver's actions, and the keys: every action has one.
import {at, make, row, say, show, table} from "./dom";
import {Drive} from "./drive";
import {identityOf, numbersOf, RUNNING, TRAIN_DATA} from "./entries";
import {setTabs} from "./tabs";

interface Action {
    id: string;
    text: string;
    key: string;
    act(drive: Drive): void
}

const MISSION = ["enter-identity", "level-1", "enter-train", "start"];

function enterIdentity(drive: Drive): void {
    const identity = identityOf();
    if (identity !== null) drive.act(1, identity);
}

function enter(drive: Drive, code: number, entries: Parameters<typeof numbersOf>[0], ...more: number[]): void {
    const numbers = numbersOf(entries);
    if (numbers) drive.act(code, ...numbers, ...more);
}

/** The steps of the start of mission that aren't done yet, one after the other. */
function doAll(drive: Drive): void {
    MISSION.forEach((id, n) => {
        if (!at(`mission-${n}`).classList.contains("done")) ACTIONS.find(one => one.id === id)?.act(drive);
    });
}

const ACTIONS: Action[] = [
    { id: "enter-identity", text: "Enter identity", key: "i", act: enterIdentity },
    { id: "enter-running", text: "Enter running number", key: "n", act: drive => enter(drive, 2, RUNNING) },
    { id: "level-1", text: "Level 1", key: "1", act: drive => drive.act(4, 1) },
    { id: "level-0", text: "Level 0", key: "0", act: drive => drive.act(4, 0) },
    { id: "enter-train", text: "Enter train data", key: "d", act: drive => enter(drive, 3, TRAIN_DATA, 15) },
    { id: "do-all", text: "Do all four", key: "m", act: doAll },
    { id: "confirm-1", text: "Confirm identity", key: "I", act: drive => drive.act(5, 1) },
    { id: "confirm-2", text: "Confirm running number", key: "N", act: drive => drive.act(5, 2) },
    { id: "confirm-3", text: "Confirm train data", key: "D", act: drive => drive.act(5, 3) },
    { id: "confirm-4", text: "Confirm level", key: "L", act: drive => drive.act(5, 4) },
    { id: "start", text: "Start", key: "s", act: drive => drive.act(6) },
    { id: "shunting", text: "Shunting", key: "h", act: drive => drive.act(7) },
    { id: "leave", text: "Leave Shunting", key: "H", act: drive => drive.act(8) },
    { id: "override", text: "Override", key: "o", act: drive => drive.act(9) },
    { id: "close", text: "Close the desk", key: "c", act: drive => drive.act(11) },
];

const click = (id: string) => (): void => at(id).click();
const OTHERS: [string, string, (drive: Drive, lever: number) => void][] = [
    ["a", "acknowledge what is asked for", drive => drive.acknowledge()],
    ["ArrowUp", "lever up by 10 %", (drive, lever) => drive.pull(lever + 10)],
    ["ArrowDown", "lever down by 10 %", (drive, lever) => drive.pull(lever - 10)],
    ["p", "pull", click("full")],
    ["r", "coast", click("coast")],
    ["b", "brake", click("slow")],
    ["f", "heed the limit", click("heed")],
    [" ", "pause, or go on", drive => drive.setTime(at("time-0").getAttribute("aria-pressed") === "true" ? 1 : 0)],
    [".", "one step", click("one-step")],
    ["x", "time ×1", click("time-1")],
    ["y", "time ×4", click("time-4")],
    ["z", "time ×16", click("time-16")],
    ["q", "cut the power", click("cut")],
    ["t", "new train", click("restart")],
    ["g", "play the story of the track", click("story")],
    ["e", "edit the track", click("edit")],
    ["O", "open a scenario of your own", click("open-scenario")],
    ["S", "save the scenarios", click("save-scenario")],
    ["C", "save what was driven as a test case", click("save-case")],
    ["M", "save the image", click("save-image")],
    ["Q", "ask this image", click("ask-this")],
];

export function setKeys(drive: Drive): void {
    for (const one of ACTIONS) {
        const click = (): void => {
            const why = at(one.id).dataset["why"];
            one.act(drive);
            if (why) say("drive-error", `${why}.`);
        };
        const button =
            make("button", { id: one.id, title: `key ${one.key}`, "data-key": `key ${one.key}`, click }, one.text);
        const step = MISSION.indexOf(one.id);
        if (step >= 0) at(`mission-${step}`).prepend(button);
        else at(one.id === "do-all" ? "mission-all" : "actions").append(button);
    }
    drive.render(true);
    const name = (key: string): string => key === " " ? "space" : key;
    show("keys", table(["key", "does"], [
        ...ACTIONS.map(one => row(one.key, one.text)), ...OTHERS.map(([key, does]) => row(name(key), does)),
        row("?", "this help"), row("← →", "on the scrubber of an image: one event back or on"),
        row("+ − 0 ← → Home End", "on the chart of an image: zoom in and out, all, move, first and last event"),
        row("← → PgUp PgDn Delete",
            "on a group of the track that is edited: 1 m or 100 m, with shift ten times as far; removes it")
    ]));
    const help = at<HTMLDialogElement>("help");
    at("help-button").addEventListener("click", () => help.showModal());
    document.addEventListener("keydown", event => {
        const on = event.target as HTMLElement;
        if (event.ctrlKey || event.altKey || event.metaKey || document.querySelector("dialog[open]")) return;
        if (on instanceof HTMLInputElement && on.type !== "range" || on instanceof HTMLSelectElement ||
            on instanceof HTMLTextAreaElement)
            return;
        if (event.key === "?") {
            help.showModal();
            event.preventDefault();
            return;
        }
        if (at("drive").hidden || (event.key === " " && on instanceof HTMLButtonElement)) return;
        const action = ACTIONS.find(one => one.key === event.key), other = OTHERS.find(([key]) => key === event.key);
        if (action) action.act(drive);
        else if (other) other[2](drive, Number(at<HTMLInputElement>("lever").value));
        else return;
        event.preventDefault();
    });
    setTabs();
}
