// Where the page begins: the module is compiled once, for the desk and for the worker.
import {Ask} from "./ask";
import {Asker} from "./asker";
import {Calls} from "./calls";
import {balisesOf, Course} from "./course";
import {at, say} from "./dom";
import {Drive} from "./drive";
import {Editor} from "./editor";
import {bitsOf} from "./hex";
import {faultAt} from "./judging";
import {caseOf, setKeeping} from "./keeping";
import {setKeys} from "./keys";
import {columnsOf, drawnOf} from "./drawing";
import {formatted, Life, openAt} from "./life";
import {Order, Report} from "./messages";
import {readScenario} from "./scenario";
import {choose, whenAsked} from "./tabs";
import {SAY} from "./texts";
import {Telegram} from "./telegram";
import {given, telegrams} from "./tracks";
import {Motion, round} from "./train";

/** A module with a memory of 64 bits, and nothing else. */
const PROBE = Uint8Array.of(0, 0x61, 0x73, 0x6d, 1, 0, 0, 0, 5, 3, 1, 4, 1);

function bytesOf64(text: string): Uint8Array { return Uint8Array.from(atob(text), letter => letter.charCodeAt(0)); }

/** Version and commit, and whether the unit is proved: at the top, and on paper with the time of printing. */
function showBuild(version: string): void {
    const { build, commit } = given, isOne = build.startsWith(`${version},`) && build.startsWith(commit);
    const says = isOne ? build : `unit ${version} of ${build}; page ${commit}`;
    say("version", says);
    at("unproved").hidden = build.endsWith("compiled from proved sources");
    at("unproved").textContent = build.endsWith("unproved") ? "unproved" : "proof unknown";
    addEventListener("beforeprint", () => say("printed", SAY.printed(says, new Date().toISOString())));
}

async function begin(): Promise<void> {
    if (typeof WebAssembly !== "object" || !WebAssembly.validate(PROBE)) {
        say("sentence", SAY.old);
        return;
    }
    say("sentence", SAY.loading);
    const module = await WebAssembly.compile(bytesOf64(given.wasm));
    const calls = Calls.of(await WebAssembly.instantiate(module, {}));
    const url = URL.createObjectURL(new Blob([given.worker], { type: "text/javascript" }));
    const start = (hear: (report: Report) => void): Worker => {
        const worker = new Worker(url);
        worker.onmessage = (event: MessageEvent<Report>) => hear(event.data);
        worker.postMessage({ kind: "module", module } as Order);
        return worker;
    };
    const ask: Ask = new Ask(start(report => ask.hear(report)), calls);
    const asker: Asker = new Asker(start(report => asker.hear(report)));
    whenAsked((name, bytes) => ask.ask(name, new Blob([bytes])));
    const drive = new Drive(calls, asker);
    setKeeping(drive);
    new Editor(calls, drive);
    setKeys(drive);
    new Telegram(calls);
    showBuild(calls.version());
    say("sentence", "");
    choose(/^#event=/.test(location.hash) ? "ask" : "drive");
    Object.assign(window, {
        gaknifur: {
            calls,
            drive,
            ask,
            parts: {
                Course,
                balisesOf,
                Life,
                formatted,
                openAt,
                Motion,
                round,
                caseOf,
                readScenario,
                telegrams,
                bitsOf,
                faultAt,
                columnsOf,
                drawnOf
            }
        }
    });
}

const dark = matchMedia("(prefers-color-scheme: dark)");
document.documentElement.classList.toggle("dark", dark.matches);
at("theme").addEventListener("click", () => document.documentElement.classList.toggle("dark"));
addEventListener("unhandledrejection", ({ reason }) => say("sentence", String(reason)));
begin().catch((error: unknown) => say("sentence", String(error)));
