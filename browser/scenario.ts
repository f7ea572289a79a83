// A scenario of one's own: a file as `etcs run` reads it (crates/simulator/README.md). What that refuses is refused
// here too, with the place of what doesn't fit.
import {Group, Scenario, Step} from "./life";

/** A text that isn't a scenario, with what doesn't fit and where. */
export class NotScenario extends Error {}

const MOST = {
    at: 100_000_000,
    spacing: 1_200,
    balises: 8,
    bytes: 104,
    drive: 1_000_000,
    back: 10_000,
    speed: 600_000
};
const MOST_MOMENT = 2 ** 40 - 1;
const WHOLE = /^(?!-0$)-?(0|[1-9][0-9]*)$/;
/** Of each code of an action the least and the greatest of its values; an identity is a text. */
export const VALUES: Record<number, [number, number][]> = {
    2: [[0, 99_999_999]],
    3: [[1, 409_500], [1, 600_000], [1, 300], [0, 10_000], [0, 15]],
    4: [[0, 1]],
    5: [[1, 4]],
    6: [],
    7: [],
    8: [],
    9: [],
    10: [[1, 4]],
    11: [],
};

type Members = Record<string, unknown>;

function members(value: unknown, place: string): Members {
    if (typeof value !== "object" || value === null || Array.isArray(value))
        throw new NotScenario(`${place || "/"}: an object is wanted`);
    return value as Members;
}

function elements(value: unknown, place: string): unknown[] {
    if (!Array.isArray(value)) throw new NotScenario(`${place}: a list is wanted`);
    return value;
}

function number(value: unknown, least: number, most: number, place: string): number {
    if (typeof value !== "number" || !(value >= least && value <= most))
        throw new NotScenario(`${place}: a whole number from ${least} to ${most} is wanted`);
    return value;
}

function telegram(value: unknown, place: string): string {
    const isHex = typeof value === "string" && /^([0-9A-Fa-f]{2})+$/.test(value);
    if (!isHex || value.length > 2 * MOST.bytes)
        throw new NotScenario(`${place}: a telegram of 1 to ${MOST.bytes} bytes in hex is wanted`);
    return value.toUpperCase();
}

function only(given: Members, wanted: string[], place: string): void {
    if (Object.keys(given).sort().join() !== [...wanted].sort().join())
        throw new NotScenario(`${place || "/"}: ${wanted.join(", ")} are wanted, and nothing else`);
}

function group(value: unknown, place: string): Group {
    const given = members(value, place);
    only(given, ["at", "spacing", "balises"], place);
    const balises = elements(given["balises"], `${place}/balises`);
    if (balises.length < 1 || balises.length > MOST.balises)
        throw new NotScenario(`${place}/balises: 1 to ${MOST.balises} balises are wanted`);
    return {
        at: number(given["at"], 1, MOST.at, `${place}/at`),
        spacing: number(given["spacing"], 1, MOST.spacing, `${place}/spacing`),
        balises: balises.map((one, n) => telegram(one, `${place}/balises/${n}`))
    };
}

function action(value: unknown, place: string): (number|string)[] {
    const [code, ...values] = elements(value, place), limits = VALUES[Number(code)];
    if (code === 1) {
        if (values.length !== 1 || typeof values[0] !== "string" || !/^[ -~]{1,16}$/.test(values[0]))
            throw new NotScenario(`${place}: an identity of 1 to 16 printable ASCII characters is wanted`);
        return [1, values[0]];
    }
    if (typeof code !== "number" || !limits || limits.length !== values.length)
        throw new NotScenario(`${place}: a code, 1 to 11, and its values are wanted`);
    return [code, ...limits.map(([least, most], n) => number(values[n], least, most, `${place}/${n + 1}`))];
}

function step(value: unknown, place: string): Step {
    const given = members(value, place), [word = ""] = Object.keys(given), inner = `${place}/${word}`;
    if (Object.keys(given).length !== 1) throw new NotScenario(`${place}: a step has one word`);
    if (word === "telegram") return { telegram: telegram(given[word], inner) };
    if (word === "clock") return { clock: number(given[word], 0, MOST_MOMENT, inner) };
    if (word === "driver") return { driver: action(given[word], inner) };
    if (word === "flush" && given[word] === true) return { flush: true };
    if (word === "drive") {
        const [way, speed, ...more] = elements(given[word], inner);
        if (more.length) throw new NotScenario(`${inner}: a movement and a speed are wanted`);
        return {
            drive: [number(way, -MOST.back, MOST.drive, `${inner}/0`), number(speed, 0, MOST.speed, `${inner}/1`)]
        };
    }
    throw new NotScenario(`${inner}: drive, telegram, clock, driver, or flush with true is wanted`);
}

/** The line and column that a browser reports for a fault in JSON, where it reports them. */
function placeIn(message: string): string {
    const found = /line (\d+) column (\d+)/.exec(message);
    return found ? ` (line ${found[1]}, column ${found[2]})` : "";
}

/** The scenario of a file. */
export function readScenario(bytes: Uint8Array): Scenario {
    let given: unknown;
    try {
        const text = new TextDecoder("utf-8", { fatal: true, ignoreBOM: true }).decode(bytes);
        // A number is taken as it is written: 1.0 and 1e3 are none.
        given = JSON.parse(text, (...[, value, context]: [string, unknown, { source?: string }?]) => {
            return typeof value === "number" && !WHOLE.test(context?.source ?? String(value)) ? NaN : value;
        });
    } catch (error) {
        // (a list in a list in a list takes the browser's stack)
        throw new NotScenario(error instanceof SyntaxError ? `this is no JSON${placeIn(error.message)}`
                : error instanceof RangeError              ? "its lists and objects are nested too deeply"
                                                           : "it isn't text in UTF-8");
    }
    const it = members(given, ""), hasCold = "cold" in it;
    only(it, hasCold ? ["cold", "groups", "steps"] : ["groups", "steps"], "");
    const cold = hasCold ? number(it["cold"], 0, 2, "/cold") : 0;
    const groups = elements(it["groups"], "/groups").map((one, n) => group(one, `/groups/${n}`));
    const steps = elements(it["steps"], "/steps").map((one, n) => step(one, `/steps/${n}`));
    return cold ? { cold, groups, steps } : { groups, steps };
}
