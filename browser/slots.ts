// The number of slots of an image whose first sector can't be used: it is entered by hand, and the image is read again.
import {at, say} from "./dom";
import {AskedImage, Given} from "./image";
import {SECTOR} from "./layouts";
import {mark, wholeOf} from "./numbers";
import {ENTRY, SAY} from "./texts";

const LEAST = 2, MOST = 1_048_576, PER_SLOT = 6;

/** The bytes of an image with so many slots. */
export const imageSize = (slots: number): number => SECTOR * (1 + PER_SLOT * slots);
/** The slots of an image with so many bytes, or with as many as fit in. */
const slotsOf = (bytes: number): number =>
    Math.min(MOST, Math.max(LEAST, Math.floor((Math.floor(bytes / SECTOR) - 1) / PER_SLOT)));
/** Whether an image can have so many whole sectors. */
export const isRing = (bytes: number): boolean => Math.floor(bytes / SECTOR) * SECTOR === imageSize(slotsOf(bytes));

export class BySlots {
    private given: Given|null = null;
    /** The slots by the first sector, where the file is longer. */
    private own = 0;

    constructor(read: (given: Given, slots: number, isEntered: boolean) => void) {
        at("read-first").addEventListener("click", () => {
            if (this.given) read(this.given, this.own, false);
        });
        at("read-slots").addEventListener("click", () => {
            const field = at<HTMLInputElement>("slots"), slots = wholeOf(field.value) ?? 0;
            const isOne = slots >= LEAST && slots <= MOST;
            mark(field, isOne);
            say("slots-error", isOne ? "" : ENTRY.slots);
            if (isOne && this.given) read(this.given, slots, true);
        });
    }

    /** Another image is read. */
    forget(): void {
        this.given = null;
        at("by-slots").hidden = at("by-first").hidden = true;
    }

    /** Why there is no journal in an image, and what can be done; `why` is the reason where its size is none. */
    whyUnread({ facts, bytes, name, isBySlots, given }: AskedImage, why: string): string {
        const slots = facts?.slots ?? 0, size = bytes.length, wanted = imageSize(slots);
        if (size < wanted && isBySlots) return SAY.tooShort(name, size, slots, wanted) + this.offer(given);
        if (size < wanted && !isRing(size)) return SAY.cutOff(name, size, slots, wanted);
        if (size > wanted) return SAY.tooLong(name, size, slots, wanted) + this.offerFirst(given, slots);
        return SAY.noImage(name, why) + this.offer(given);
    }

    /**
     * Offers to read only the first bytes of a file that is longer than its slots, and where its size is that of an
     * image also to read it with another number of slots; answers what is said of that.
     */
    private offerFirst(given: Given, slots: number): string {
        const says = isRing(given.file.size) ? this.offer(given) : "";
        this.given = given;
        this.own = slots;
        say("read-first", ENTRY.readFirst(imageSize(slots)));
        at("by-first").hidden = false;
        return says;
    }

    /** Offers to read an image with another number; answers what is said of it. */
    offer(given: Given): string {
        this.given = given;
        const slots = slotsOf(given.file.size);
        at<HTMLInputElement>("slots").value = String(slots);
        mark(at("slots"), true);
        say("slots-error", "");
        at("by-slots").hidden = false;
        return ` ${SAY.bySlots(slots)}`;
    }
}
