// Driving: the desk, the track, time, and power. All that the desk shows is what the unit released, and what its calls
// describe it.
import {ask as askImage} from "./tabs";
import {draw} from "./chart";
import {Asker} from "./asker";
import {Calls, Held} from "./calls";
import {Driven} from "./cases";
import {balisesOf, Course, Heeding, IDLE_MS, STEP_MS} from "./course";
import {askHow} from "./cutting";
import {Dial, distanceBar, shownOf} from "./dial";
import {at, make, say, show} from "./dom";
import {State, Why} from "./layouts";
import {bytesOfHex} from "./hex";
import {showStop} from "./guarding";
import {formatted, Refused} from "./life";
import {aheadOf, drawPlan} from "./planning";
import {brakeReason, brakeText, count, indicationTexts, keptTexts, kmh} from "./shown";
import {levelText, limitText, metres, modeName, seconds} from "./shown";
import {AHEAD, SAY, STATUSES, WORDS} from "./texts";
import {greyOut, owedIn, showMission, showSteps} from "./mission";
import {given, learnAll, offerTracks, Track, tracks} from "./tracks";

const SLOTS = 2048, TRAIN = {
    acceleration: 60,
    service: 70,
    emergency: 100,
    reaction: 500,
    buildUp: 1500
};
const LEVERS: [string, number][] = [["full", 100], ["coast", 0], ["slow", -100]];
/** How long the causes may be out of date while time runs, in addition to what a question takes. */
const STALE_MS = 250;

export class Drive {
    course: Course|null = null;
    private medium: Held;
    track: Track;
    private isOff = false;
    private time = 0;
    private lever = 0;
    private heeds = false;
    private driver = new Heeding();
    private why: Why|null = null;
    private whyOf = -1;
    /** Whether the asker answered in this life. */
    private isKnown = false;
    private whyAt = 0;
    private due = 0;
    private state: State|null = null;
    private readonly dial = new Dial(at("dial"));

    constructor(private readonly calls: Calls, private readonly asker: Asker) {
        const [first] = given.tracks;
        if (!first) throw new Error("there is no track");
        this.track = first;
        this.medium = calls.hold(formatted(calls, SLOTS));
        showMission();
        const select = at<HTMLSelectElement>("track");
        select.addEventListener("change", () => this.board(Number(select.value)));
        at("restart").addEventListener("click", () => this.board(Number(select.value)));
        at("story").addEventListener("click", () => this.guard(() => this.story()));
        for (const factor of [0, 1, 4, 16]) at(`time-${factor}`).addEventListener("click", () => this.setTime(factor));
        at("one-step").addEventListener("click", () => {
            this.setTime(0);
            this.guard(() => this.step());
        });
        at("cut").addEventListener("click", () => this.askCut());
        at("lever").addEventListener("input", () => this.pull(Number(at<HTMLInputElement>("lever").value)));
        for (const [id, value] of LEVERS) at(id).addEventListener("click", () => this.pull(value));
        at("heed").addEventListener("click", () => {
            this.heeds = !this.heeds;
            this.showLever();
        });
        at("ask-this").addEventListener("click", () => {
            this.setTime(0);
            askImage("the image of this desk", this.image());
        });
        this.board(0);
        setInterval(() => this.tick(), 50);
    }

    /** A new train with a new journal, at the beginning of a track. */
    board(number: number): void {
        this.track = tracks[number] ?? this.track;
        learnAll(this.track.scenario, digits => this.calls.decode(bytesOfHex(digits))[0] === 0);
        offerTracks(at<HTMLSelectElement>("track"), number);
        say("track-text", this.track.text);
        if (this.course && !this.isOff) this.course.life.cut();
        this.calls.drop(this.medium);
        this.medium = this.calls.hold(formatted(this.calls, SLOTS));
        this.course = null;
        this.forget();
        this.isOff = false;
        this.pull(0);
        this.setTime(0);
        this.guard(() => {
            this.course = new Course(
                this.calls, this.medium, TRAIN, balisesOf(this.track.scenario.groups), this.track.scenario.cold ?? 0);
            this.hearStart();
        });
        this.render(true);
    }

    /** The telegrams of balises that lie where the train begins. */
    private hearStart(): void {
        for (const step of this.track.scenario.steps) {
            if (!("telegram" in step)) break;
            this.course?.accept(step);
        }
        if (this.course?.state.pending) this.course.flush();
    }

    /** The scenario of the track as it is written, on a new train. */
    private story(): void {
        const number = tracks.indexOf(this.track);
        this.board(number);
        this.course?.life.cut();
        this.calls.put(this.medium, 0, formatted(this.calls, SLOTS));
        this.course = new Course(
            this.calls, this.medium, TRAIN, balisesOf(this.track.scenario.groups), this.track.scenario.cold ?? 0);
        this.course.play(this.track.scenario);
        if (this.track.restart) {
            this.course.life.cut();
            this.course.powerUp(this.track.restart.cold ?? 0);
            this.course.play(this.track.restart);
        }
        this.render(true);
    }

    private guard(work: () => void): void {
        say("drive-error", "");
        try {
            work();
        } catch (error) {
            this.time = 0;
            say("drive-error",
                error instanceof Refused ? SAY.refused(STATUSES[error.status] ?? `status ${error.status}`)
                                         : String(error));
        }
        this.render(true);
    }

    setTime(factor: number): void {
        this.time = factor;
        this.due = performance.now();
        for (const one of [0, 1, 4, 16]) at(`time-${one}`).setAttribute("aria-pressed", String(one === factor));
    }

    pull(value: number): void {
        this.lever = Math.max(-100, Math.min(100, value));
        this.heeds = false;
        this.showLever();
    }

    private showLever(): void {
        at<HTMLInputElement>("lever").value = String(this.lever);
        say("lever-said",
            this.heeds           ? "heeds the limit"
                : this.lever > 0 ? `${this.lever} % traction`
                : this.lever < 0 ? `${- this.lever} % service brake`
                                 : "0");
        for (const [id, value] of LEVERS)
            at(id).setAttribute("aria-pressed", String(!this.heeds && this.lever === value));
        at("heed").setAttribute("aria-pressed", String(this.heeds));
    }

    private tick(): void {
        const { course } = this;
        if (!course || this.isOff || !this.time) return;
        const now = performance.now(), before = course.moment;
        let steps = 0;
        this.due = Math.max(this.due, now - 500);
        while (this.due <= now && steps < 40 && this.time) {
            this.due += (course.idles && !this.wantsToMove() ? IDLE_MS : STEP_MS) / this.time;
            this.guardStep();
            steps++;
        }
        if (course.moment !== before) this.render(false);
    }

    private wantsToMove(): boolean { return (this.heeds || this.lever > 0) && this.course?.output.brake === 0; }

    private guardStep(): void {
        try {
            this.step();
        } catch (error) {
            this.guard(() => {
                throw error;
            });
        }
    }

    step(): void {
        if (!this.course || this.isOff) return;
        this.course.step(this.heeds ? this.driver.lever(this.course.motion.metresPerHour, this.course.output.limit)
                                    : this.lever / 100);
    }

    /** An action of the driver. */
    act(...values: (number|string)[]): void {
        this.guard(() => {
            if (!this.isOff) this.course?.act(...values);
        });
    }

    image(): Uint8Array { return this.calls.bytesOf(this.medium); }
    get slots(): number { return SLOTS; }
    /** Whether blocks were written over older ones. */
    get isWrittenOver(): boolean { return (this.calls.facts(this.medium).value?.newest ?? 0) > SLOTS; }
    lives(): Driven[] {
        return (this.course?.lives ?? []).map(({ scenario, outputs, isTorn }) => ({ scenario, outputs, isTorn }));
    }

    // ---- power

    private askCut(): void {
        const { course } = this;
        if (!course || this.isOff) return;
        this.setTime(0);
        askHow({
            now: () => {
                course.life.cut();
                this.powerOff();
            },
            prepare: () => {
                course.run(this.lever / 100);
                return course.life.prepare();
            },
            within: (list, index, left) => {
                course.life.cutWithin(list, index, left);
                this.powerOff();
            },
        });
        at("cutting").onclose = () => {
            if (!this.isOff && course.life.state.requests)
                this.guard(() => {
                    course.life.resume();
                    course.flush();
                });
        };
    }

    private powerOff(): void {
        const { course } = this;
        if (!course) return;
        const way = course.rollOut();
        this.isOff = true;
        this.forget();
        const buttons =
            [2, 1, 0].map(word => make("button",
                              { id: `up-${word}`, disabled: word === 2 && way > 0, click: () => this.powerUp(word) },
                              `Power up: ${WORDS[word]}`));
        show("owed",
            make("div", {}, make("p", {}, `${way > 0 ? SAY.ran(metres(way)) + " " : ""}${SAY.powerOff}`), ...buttons));
        this.render(true);
    }

    private forget(): void {
        this.why = null;
        this.whyOf = -1;
        this.isKnown = false;
    }

    private powerUp(word: number): void {
        show("owed");
        this.guard(() => {
            this.course?.powerUp(word);
            this.isOff = false;
        });
    }

    // ---- what is shown

    render(isFresh: boolean): void {
        const { course } = this;
        if (!course) return;
        const { output } = course;
        if (!this.isOff) this.findWhy(isFresh);
        const most = Math.max(course.speed, output.limit) > 180_000 ? 250 : 180;
        this.dial.setScale(most);
        this.dial.show(shownOf(course.speed, this.isOff ? 0 : output.limit, this.isOff ? 0 : output.brake,
            this.isOff ? 0 : output.indications, this.why));
        say("dial-said",
            this.isOff ? "Power is off."
                       : `${kmh(course.speed)} km/h, limit ${kmh(output.limit)} km/h` +
                    (this.why && this.why.limitCause >= AHEAD && this.why.causeAt !== null
                            ? `, target ${kmh(this.why.causeSpeed)} km/h`
                            : ""));
        say("mode", this.isOff ? "off" : modeName(output.mode));
        say("level", this.isOff ? "" : `level ${levelText(output.level)}`);
        say("brake", this.isOff ? "" : brakeText(output.brake));
        at("brake").className = `lamp brake-${this.isOff ? 0 : output.brake}`;
        showStop(this.isOff ? null : course.guard, () => this.guard(() => course.guard.acknowledge(course.speed)));
        say("shown-texts",
            this.isOff ? SAY.powerOff
                       : `Shown: ${indicationTexts(output.indications).join(", ") || "nothing"}. ${
                             seconds(course.moment)} of this life.`);
        this.renderWhy();
        this.renderPlan();
        if (!this.isOff) this.renderOwed();
        this.renderChart();
        this.renderLife();
    }

    /** Asks why, one question at a time, and not too often while time runs. */
    private findWhy(isFresh: boolean): void {
        const { course } = this, now = performance.now();
        if (!course || this.asker.isBusy || (!isFresh && now - this.whyAt < STALE_MS)) return;
        const { newest } = this.calls.facts(this.medium).value ?? { newest: 0 };
        const head = this.calls.block(this.medium, newest).value;
        const event = course.life.outputs.length ? course.output.event : (head?.events ?? 1) - 1;
        if (this.whyOf === event) return;
        const { life } = course;
        this.whyOf = event;
        this.whyAt = now;
        this.asker.ask(this.image(), newest, event, why => {
            if (this.course?.life !== life || this.isOff) return;
            this.why = why;
            this.isKnown = true;
            this.render(!this.time);
        });
    }

    private renderWhy(): void {
        const { why, course } = this;
        const texts = !course || this.isOff || !this.isKnown ? []
            : why                                            ? brakeReason(why, course.output)
                                                             : [SAY.notReplayed];
        show("causes", ...texts.map(text => make("li", {}, text)));
        say("limit-cause", why && !this.isOff ? limitText(why) : "");
        say("as-of",
            why && course && course.life.outputs.length && why.event !== course.output.event && !this.isOff
                ? SAY.slow(why.event)
                : "");
    }

    private renderPlan(): void {
        const { course, why } = this;
        if (!course) return;
        if (!this.isOff) this.state = course.state;
        const ahead = aheadOf(course.heard, given.decoded), front = this.state;
        if (!front) return;
        const target = why && why.limitCause >= AHEAD && why.causeAt !== null && !this.isOff
            ? { distance: why.causeAt - front.front, speed: why.causeSpeed }
            : null;
        drawPlan(at("plan"), ahead, course.motion.place, course.balises.map(balise => balise.at), target);
        distanceBar(at("distance"), target ? target.distance / 100 : null);
        say("plan-said",
            this.isOff ? ""
                       : `The unit takes the front to be at ${metres(front.front)} ± ${metres(front.uncertainty)}` +
                    (target ? `; its target is ${metres(target.distance)} ahead.` : "."));
    }

    private renderOwed(): void {
        const owed = owedIn(this.course?.output.indications ?? 0), key = owed.map(([kind]) => kind).join();
        if (at("owed").dataset["kinds"] === key && at("owed").childElementCount === owed.length) return;
        at("owed").dataset["kinds"] = key;
        const button = (kind: number, text: string): Node =>
            make("button", { id: `acknowledge-${kind}`, class: "due", click: () => this.act(10, kind) }, text);
        show("owed", ...owed.map(([kind, , text]) => button(kind, text)));
    }

    /** Acknowledges the first that is asked for. */
    acknowledge(): void {
        const [first] = owedIn(this.course?.output.indications ?? 0);
        if (first) this.act(10, first[0]);
    }

    private renderChart(): void {
        const points = this.course?.points ?? [];
        const marks = points.flatMap((point, n) => point.brake && n && points[n - 1]?.brake !== point.brake
                ? [{ index: n, brake: point.brake }]
                : []);
        draw(at("drive-chart"), {
            x: points.map(point => point.place),
            speed: points.map(point => point.speed),
            limit: points.map(point => point.limit),
            marks,
            title: "Speed and limit over distance"
        });
    }

    private renderLife(): void {
        const { course } = this, newest = this.calls.facts(this.medium).value?.newest ?? 0;
        const head = newest ? this.calls.block(this.medium, newest).value : null;
        if (!course || !head) return;
        const text =
            `Life ${head.lives}, block ${count(head.number)}, events to ${count(head.events - 1)}. ${SAY.kept}: ` +
            keptTexts(head.kept).map(([name, value]) => `${name} ${value}`).join("; ") + ".";
        if (at("life-said").textContent !== text) say("life-said", text);
        const now = {...course.output, stands: course.motion.stands, kept: head.kept };
        showSteps(now);
        greyOut(this.isOff ? null : now);
    }
}
