// The tabs, and how one hands something to another.
import {at} from "./dom";

const TABS = ["drive", "ask", "telegram"] as const;
export type Tab = typeof TABS[number];
let asked: ((name: string, bytes: Uint8Array) => void)|null = null;
let apart: ((digits: string) => void)|null = null;

export function choose(name: Tab): void {
    for (const one of TABS) {
        at(one).hidden = one !== name;
        at(`tab-${one}`).setAttribute("aria-selected", String(one === name));
        at(`tab-${one}`).tabIndex = one === name ? 0 : -1;
    }
}

/** The tabs are one stop of the Tab key; the arrow keys go from one to the next. */
export function setTabs(): void {
    TABS.forEach((name, n) => {
        const last = TABS.length - 1;
        const by: Record<string, number> = { ArrowRight: n + 1, ArrowLeft: n + last, Home: 0, End: last };
        at(`tab-${name}`).addEventListener("click", () => choose(name));
        at(`tab-${name}`).addEventListener("keydown", event => {
            const to = TABS[(by[event.key] ?? NaN) % TABS.length];
            if (!to) return;
            choose(to);
            at(`tab-${to}`).focus();
            event.preventDefault();
            event.stopPropagation();
        });
    });
}

export function whenAsked(use: (name: string, bytes: Uint8Array) => void): void { asked = use; }
export function whenApart(use: (digits: string) => void): void { apart = use; }

/** Shows what an image contains. */
export function ask(name: string, bytes: Uint8Array): void {
    choose("ask");
    at("tab-ask").focus();
    asked?.(name, bytes);
}

/** Takes a telegram in hex apart. */
export function takeApart(digits: string): void {
    choose("telegram");
    at("tab-telegram").focus();
    apart?.(digits);
}
