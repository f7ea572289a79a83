// What is typed into a field as a number: only digits, so that nothing is taken for another number than it looks like.

/** A whole number as its digits, also in groups of three; null where a text is none. */
export function wholeOf(text: string): number|null {
    const digits = text.trim();
    if (!/^[0-9]{1,15}$|^[0-9]{1,3}(,[0-9]{3}){1,4}$/.test(digits)) return null;
    return Number(digits.replace(/,/g, ""));
}

/** A number in units of which so many are one of the field's, at most as many digits after the point as that gives. */
export function scaledOf(text: string, scale: number): number|null {
    const [, whole = "", part = ""] = /^([0-9]{1,12})(?:\.([0-9]+))?$/.exec(text.trim()) ?? [];
    const places = String(scale).length - 1;
    if (!whole || part.length > places) return null;
    return Number(whole + part.padEnd(places, "0"));
}

/** Marks a field whose entry can't be used. */
export function mark(field: HTMLElement, isGood: boolean): void { field.setAttribute("aria-invalid", String(!isGood)); }
