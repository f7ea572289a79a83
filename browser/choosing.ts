// A file that is dropped on the page, or chosen.
import {at} from "./dom";
import {spelled} from "./escaping";
import {SECTOR} from "./layouts";
import {SAY} from "./texts";

const MOST_BYTES = 512 * 1024 * 1024;

/** The name of a file as it is shown: characters that can't be seen, or that turn the text, are spelled. */
export function nameOf(file: File): string { return spelled(file.name); }

/** Hands on the files that are dropped or chosen together. */
export function whenChosen(take: (files: File[]) => void): void {
    const drop = at("drop"), chosen = at<HTMLInputElement>("file");
    document.addEventListener("dragover", event => {
        event.preventDefault();
        drop.classList.add("over");
    });
    document.addEventListener("dragleave", () => drop.classList.remove("over"));
    document.addEventListener("drop", event => {
        event.preventDefault();
        drop.classList.remove("over");
        take([...event.dataTransfer?.files ?? []]);
    });
    chosen.addEventListener("change", () => take([...chosen.files ?? []]));
}

/** Why a file isn't read as an image: a folder, or its size; nothing where it is. */
export async function misfit(file: File): Promise<string> {
    const name = nameOf(file);
    if (file.size > MOST_BYTES) return SAY.tooBig(name);
    try {
        await file.slice(0, 1).arrayBuffer();
    } catch { return SAY.noImage(name, SAY.unreadableFile); }
    return file.size < SECTOR ? SAY.tooSmall(name) : "";
}
