// An event of an image: what the driver saw, why it was answered so, and its bytes.
import {outcomeText} from "./answers";
import {reasonOf} from "./brief";
import {Calls} from "./calls";
import {Dial, scaleOf, shownOf} from "./dial";
import {at, make, say, show} from "./dom";
import {fieldsOf, placeOf, showBytes, sizeOf} from "./fields";
import {AskedImage} from "./image";
import {Facts, JournalRecord, TELEGRAM} from "./layouts";
import {Order} from "./messages";
import {brakeReason, brakeText, count, eventText, levelText, limitText, modeName, permittedText} from "./shown";
import {speedText} from "./shown";
import {offerApart} from "./telegram";
import {SAY} from "./texts";

const WAIT_MS = 40;

export class EventView {
    private readonly dial = new Dial(at("ask-dial"));
    private asking = 0;

    constructor(
        private readonly worker: { postMessage(order: Order): void }, private readonly calls: Calls) {}

    /** Shows a record of an image that has been read. */
    show(image: AskedImage): void {
        const { records, facts, index } = image;
        clearTimeout(this.asking);
        if (!records?.count || !facts) return;
        const record = records.get(index), speed = image.speeds[index] ?? NaN;
        this.showTexts(record, speed);
        this.showWhy(image, record, speed);
        this.showBytes(image, facts, record);
    }

    private showTexts(record: JournalRecord, speed: number): void {
        say("event-said",
            `Event ${count(record.event)} of life ${record.life}, block ${count(record.block)}: ${eventText(record)}`);
        say("ask-texts", outcomeText(record));
        say("ask-mode", modeName(record.mode));
        say("ask-level", `level ${levelText(record.level)}`);
        say("ask-brake", brakeText(record.brake));
        at("ask-brake").className = `lamp brake-${record.brake}`;
        say("ask-dial-said", `${speedText(speed)}, limit ${permittedText(record.limit)}`);
        this.dial.setScale(scaleOf(Math.max(speed || 0, record.limit ?? 0)));
    }

    private showWhy({ id, replays, whys }: AskedImage, record: JournalRecord, speed: number): void {
        const { event, block } = record, answer = whys.get(event);
        this.dial.show(shownOf(speed, record.limit, record.brake, record.indications, answer?.why ?? null));
        if (!answer) {
            show("ask-causes", make("li", {}, "…"));
            say("ask-limit", "");
            const ask = (): void => this.worker.postMessage({ kind: "why", id, block, event });
            this.asking = setTimeout(ask, WAIT_MS) as unknown as number;
            return;
        }
        const reason = replays ? reasonOf(replays, event) : null, why = reason ? null : answer.why;
        show("ask-causes", ...(why ? brakeReason(why, record) : [
            reason ? SAY.whyNot(reason) : SAY.notReplayed
        ]).map(text => make("li", {}, text)));
        say("ask-limit", why ? limitText(why) : "");
    }

    private showBytes({ heads, bytes }: AskedImage, facts: Facts, record: JournalRecord): void {
        const head = heads.get(record.block);
        if (!head) return;
        const place = placeOf(record, head.firstEvent, facts.slots);
        showBytes(
            at("hex"), at("fields"), bytes.slice(place, place + sizeOf(record)), place, fieldsOf(record, this.calls));
        offerApart(record.kind === TELEGRAM ? record.payload : null);
    }
}
