// What the number of a variable is as a quantity (SUBSET-026, 7.5.1), by the units of docs/reference/packets.md.
import {Field} from "./reading";
import {metres} from "./shown";
import {given} from "./tracks";

/** A step of each Q_SCALE in cm, a step of a speed in km/h, and the greatest number of steps that is a speed. */
export const SCALES = [10, 100, 1000], SPEED = 5, MOST_SPEED = 120;

/**
 * The quantity of a number with its unit. It is empty where the variable is none, and where the number is the greatest
 * of its bits, or no speed: what such a number means its variable says.
 */
export function quantity({name, number, width}: Field, scale: number): string {
    const unit = given.grammar.units[name] ?? "", n = Number(number), step = SCALES[scale];
    if (unit === "ISO 8859-1") return (n > 32 && n < 127) || n > 160 ? `“${String.fromCharCode(n)}”` : "";
    if (unit === "5 km/h") return n <= MOST_SPEED ? `${SPEED * n} km/h` : "";
    if (unit === "" || n === 2 ** width - 1) return "";
    if (unit === "scale") return step === undefined ? "" : metres(n * step);
    if (unit === "0.5 t") return `${n / 2} t`;
    return `${n} ${unit === "per mille" ? "‰" : unit}`;
}
