// What is taken from a disk and put there: images, scenarios and test cases. Nothing is kept by itself.
import {caseText} from "./cases";
import {nameOf} from "./choosing";
import {at, save, say} from "./dom";
import {Drive} from "./drive";
import {textOf} from "./life";
import {NotScenario, readScenario} from "./scenario";
import {EDIT, SAY} from "./texts";
import {addTrack} from "./tracks";

const MOST_BYTES = 16 * 1024 * 1024;

/** Takes the scenario of a file as a track of one's own, with its steps as the story. */
async function open(drive: Drive, file: File): Promise<void> {
    const name = nameOf(file);
    try {
        if (file.size > MOST_BYTES) throw new NotScenario("it has more than 16 MB");
        const scenario = readScenario(new Uint8Array(await file.arrayBuffer()));
        const track = { name: EDIT.own + name, text: SAY.ownText, scenario, restart: null };
        drive.board(addTrack(track));
    } catch (error) {
        const why = error instanceof DOMException ? SAY.unreadableFile : String(error);
        say("drive-error",
            error instanceof NotScenario ? SAY.notScenario(name, error.message) : SAY.noImage(name, why));
    }
}

function saveScenarios(drive: Drive): void {
    drive.lives().forEach(({ scenario, isTorn }, n) => {
        if (isTorn) say("drive-error", SAY.torn);
        save(`life${n + 1}.json`, textOf(scenario), "application/json");
    });
}

/** What was driven as a test case; nothing where there is none. */
export function caseOf(drive: Drive): string { return caseText("driven_in_the_page", drive.lives(), drive.slots); }

function saveCase(drive: Drive): void {
    const text = drive.isWrittenOver ? "" : caseOf(drive);
    if (text) save("driven.case.yaml", text, "application/yaml");
    else say("drive-error", drive.isWrittenOver ? SAY.caseTooLong : SAY.noCase);
}

export function setKeeping(drive: Drive): void {
    const file = at<HTMLInputElement>("scenario-file");
    at("save-image").addEventListener("click", () => save("image", drive.image(), "application/octet-stream"));
    at("save-scenario").addEventListener("click", () => saveScenarios(drive));
    at("save-case").addEventListener("click", () => saveCase(drive));
    at("open-scenario").addEventListener("click", () => file.click());
    file.addEventListener("change", () => {
        if (file.files?.[0]) void open(drive, file.files[0]);
        file.value = "";
    });
}
