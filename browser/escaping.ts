// Texts of files, escaped as python/gaknifur/escaping.py does it.
const HIDDEN = /[\p{Cc}\p{Cf}\p{Cs}\p{Co}\p{Cn}\p{Zl}\p{Zp}]/gu;
const MOST_QUOTED = 40;

/** A text on one line, with each character that can't be seen spelled. */
export function spelled(text: string): string {
    return text.replace(HIDDEN, one => {
        const number = one.codePointAt(0) ?? 0, digits = number.toString(16);
        return number < 0x100 ? `\\x${digits.padStart(2, "0")}`
            : number < 0x10000 ? `\\u${digits.padStart(4, "0")}`
                               : `\\U${digits.padStart(8, "0")}`;
    });
}

/** A text as it is quoted in a sentence: spelled, and no longer than a line. */
export function short(text: string): string {
    return spelled(text.length > MOST_QUOTED ? `${text.slice(0, MOST_QUOTED)}…` : text);
}
