// Whether an image is whole, by the rule of `etcs_lab check` (crates/image_lines/README.md) on what the calls
// say of slots, heads and records: no call of the library answers it.
import {END, Records} from "./calls";
import {Facts, POWER_UP, Slot} from "./layouts";
import {Head} from "./messages";

/** The greatest number of lives of a head, and the number of a block after which a power-up is refused. */
const MOST_LIVES = 0xffffffff, LAST_NUMBER = 2 ** 40;

/** How many power-ups each block contains, and whether a moment goes back within a life. */
function contents(records: Records): { powerUps: Map<number, number>; goesBack: boolean } {
    const powerUps = new Map<number, number>();
    let goesBack = false;
    for (let n = 0; n < records.count; n++) {
        if (records.kind(n) === POWER_UP) powerUps.set(records.block(n), (powerUps.get(records.block(n)) ?? 0) + 1);
        else if (n && records.moment(n) < records.moment(n - 1)) goesBack = true;
    }
    return { powerUps, goesBack };
}

/** Whether a block with so many power-ups follows the one before; of the oldest block whether its lives can be. */
function follows(before: Head|undefined, head: Head, powerUps: number): boolean {
    if (!before) return Math.max(powerUps, 1) <= head.lives && head.lives <= powerUps + head.firstEvent;
    return head.number === before.number + 1 && head.events === before.events + head.records &&
        head.lives === Math.min(MOST_LIVES, before.lives + powerUps);
}

export function isWhole(facts: Facts, slots: Slot[], heads: Head[], records: Records, status: number): boolean {
    if (status !== END || facts.whole !== facts.slots || facts.sectors !== 1 + 6 * facts.slots) return false;
    if (facts.newest >= LAST_NUMBER || !slots.every(slot => slot.isSound)) return false;
    if (heads.length !== Math.min(facts.newest, facts.slots)) return false;
    const sorted = [...heads].sort((one, other) => one.number - other.number);
    const { powerUps, goesBack } = contents(records);
    return !goesBack && sorted.every((head, n) => follows(sorted[n - 1], head, powerUps.get(head.number) ?? 0));
}
