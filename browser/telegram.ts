// A telegram by itself: in hex, by its variables as a text, and variable by variable with its bits.
import {Calls} from "./calls";
import {at, say} from "./dom";
import {Form} from "./form";
import {hexOf} from "./hex";
import {judge, textOf} from "./judging";
import {takeApart, whenApart} from "./tabs";

export class Telegram {
    private readonly form: Form;

    constructor(private readonly calls: Calls) {
        this.form = new Form(at("telegram-form"), calls, digits => this.take(digits));
        const hex = at<HTMLTextAreaElement>("telegram-hex"), words = at<HTMLTextAreaElement>("telegram-words");
        hex.addEventListener("input", () => this.show(hex.value, hex));
        words.addEventListener("input", () => this.show(words.value, words));
        whenApart(digits => this.take(digits));
    }

    private take(digits: string): void { this.show(digits, null); }

    /** Shows the meaning of a text; the field that it is typed into stays as it is. */
    private show(text: string, typed: HTMLTextAreaElement|null): void {
        const { digits, says, kind } = judge(this.calls, text);
        const hex = at<HTMLTextAreaElement>("telegram-hex"), words = at<HTMLTextAreaElement>("telegram-words");
        if (typed !== hex) hex.value = digits;
        if (typed !== words) words.value = digits && textOf(digits);
        say("telegram-said", text.trim() ? says : "");
        at("telegram-said").className = `verdict ${kind}`;
        this.form.show(digits);
    }
}

/** Offers to take apart a telegram that a record carries. */
export function offerApart(bytes: Uint8Array|null): void {
    const button = at<HTMLButtonElement>("take-apart");
    button.hidden = bytes === null;
    button.onclick = (): void => {
        if (bytes) takeApart(hexOf(bytes).toUpperCase());
    };
}
