// The verdict of an image, in the sentences of docs/reference/lab.md (The verdict of an image).
import {END} from "./calls";
import {Replay} from "./layouts";
import {STATUSES} from "./texts";
import {KEPT_NAMES, RECORD_NAMES, VERDICT} from "./wording";

/** The verdicts of a life that is run again. */
const RECORD_DIFFERS = 2, HEAD_DIFFERS = 3, OVERWRITTEN = 4;

function differenceText(all: Replay[]): string[] {
    const [one] = all;
    if (!one) return [];
    const isRecord = one.verdict === RECORD_DIFFERS, field = (isRecord ? RECORD_NAMES : KEPT_NAMES)[one.field] ?? "";
    const where = isRecord ? VERDICT.event(one.event) : VERDICT.head(one.block);
    return [VERDICT.differs(one.life, where, field, all.length - 1)];
}

function notReplayedText(all: Replay[]): string[] {
    const [one] = all;
    if (!one) return [];
    return [VERDICT.notReplayed(one.first, one.last, all.length - 1, VERDICT.reasons[one.verdict] ?? "")];
}

/** A sentence for what isn't whole, or differs from the replay; none where nothing is found. */
export function verdictOf(status: number, isWhole: boolean, replays: Replay[]): string[] {
    const reason = STATUSES[status] ?? `status ${status}`;
    const said = status !== END ? [VERDICT.noEvents(reason)] : isWhole ? [] : [VERDICT.notWhole];
    said.push(...differenceText(replays.filter(one => [RECORD_DIFFERS, HEAD_DIFFERS].includes(one.verdict))));
    const faults = said.length ? said : notReplayedText(replays.filter(one => one.verdict > OVERWRITTEN));
    return faults.length ? [faults.join("; ")] : [];
}
