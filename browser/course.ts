// A train on a track with a unit on board, step by step, as python/gaknifur/simulation/driving.py has it: in each time
// step the train moves, and the unit is given the moment, the way up to each balise with its telegram, and the rest of
// the way.
import {Calls, Held} from "./calls";
import {Guard} from "./guarding";
import {Output, State} from "./layouts";
import {Group, Life, Scenario, Step} from "./life";
import {LONGEST_CM, Motion, round, Train} from "./train";

export interface Balise {
    at: number;
    origin: number;
    telegram: string
}
export interface Heard {
    place: number;
    telegram: string
}
export interface Point {
    event: number;
    place: number;
    moment: number;
    speed: number;
    limit: number;
    brake: number
}
export const STEP_MS = 250, IDLE_MS = 1000;
const LOOKS_S = 3, BELOW = 4000, BAND = 5000, LEAST = 0.2;

/** The balises of some groups, as a train passes them. */
export function balisesOf(groups: Group[]): Balise[] {
    return groups
        .flatMap(group => group.balises.map(
                     (telegram, n) => ({ at: group.at + n * group.spacing, origin: group.at, telegram })))
        .sort((one, other) => one.at - other.at);
}

/** What holds until the first output of a life: the power-up's is never released. */
export const BEFORE: Output = {
    event: 0,
    limit: 0,
    mode: 6,
    level: 255,
    brake: 2,
    indications: 32
};

export class Course {
    life: Life;
    guard: Guard;
    output = BEFORE;
    moment = 0;
    readonly lives: Life[] = [];
    readonly points: Point[] = [];
    readonly heard: Heard[] = [];
    readonly motion: Motion;
    private reportedCm = 0;
    private base = 0;

    constructor(
        private readonly calls: Calls, readonly medium: Held, train: Train, readonly balises: Balise[], cold: number) {
        this.motion = new Motion(train);
        this.life = new Life(calls, medium, cold);
        this.guard = new Guard(calls);
        this.lives.push(this.life);
    }

    get speed(): number { return this.motion.stands ? 0 : Math.max(1, round(this.motion.metresPerHour)); }
    get state(): State { return this.life.state; }

    /** Powers up again, with the word on movement. The train is where it was. */
    powerUp(cold: number): void {
        this.life = new Life(this.calls, this.medium, cold);
        this.guard = new Guard(this.calls);
        this.lives.push(this.life);
        this.output = BEFORE;
        this.moment = this.reportedCm = 0;
        this.base = this.motion.place;
        this.points.length = 0;
        this.heard.length = 0;
        this.motion.ask(0, 0);
    }

    accept(step: Step, origin?: number): void {
        if ("telegram" in step)
            this.guard.hear(step.telegram, this.groupOf(step.telegram, origin), this.heard, this.output);
        this.life.accept(step);
        if ("telegram" in step) this.heard.push({ place: origin ?? this.motion.place, telegram: step.telegram });
        if ("clock" in step) this.moment = step.clock;
    }

    /** The telegrams of a group, as the train passes them. */
    private groupOf(telegram: string, origin?: number): string[] {
        const group = this.balises.filter(one => one.origin === origin).map(one => one.telegram);
        return group.length ? group : [telegram];
    }

    /** What is pending is recorded, and the last output holds. */
    flush(): Output[] {
        const before = this.life.outputs.length;
        this.life.flush();
        const released = this.life.outputs.slice(before);
        this.output = this.life.outputs[this.life.outputs.length - 1] ?? this.output;
        return released;
    }

    /** An action of the driver, recorded at once. */
    act(...values: (number|string)[]): void {
        this.accept({ driver: values });
        this.flush();
        this.note();
    }

    private travelled(): number { return round(this.motion.place - this.base); }

    private read(speed: number, isWanted: boolean): void {
        const travelled = this.travelled();
        for (let wanted = isWanted; wanted; wanted = this.reportedCm !== travelled) {
            const way = Math.max(-LONGEST_CM, Math.min(LONGEST_CM, travelled - this.reportedCm));
            this.accept({ drive: [way, speed] });
            this.reportedCm += way;
        }
    }

    private passTo(end: number, speed: number): void {
        const begun = this.motion.place;
        let isReported = false;
        for (const balise of this.balises) {
            if (begun < balise.at && balise.at <= end) {
                this.motion.place = balise.at;
                this.read(speed, this.travelled() !== this.reportedCm);
                this.accept({ telegram: balise.telegram }, balise.origin);
                isReported = true;
            }
        }
        this.motion.place = end;
        this.read(speed, !isReported || this.travelled() !== this.reportedCm);
    }

    /** One time step: the lever is from -1, the full service brake, to 1, full power. */
    step(lever: number): void {
        this.run(lever);
        this.flush();
        this.note();
    }

    /** The same up to what is recorded. */
    run(lever: number): void {
        const { motion, moment, output } = this, { train } = motion;
        const commanded = output.brake === 2 ? train.emergency : output.brake === 1 ? train.service : 0;
        const own = Math.max(0, -lever);
        motion.ask(moment, Math.max(own * train.service, commanded));
        const before = motion.place, stood = motion.stands;
        motion.move(moment, STEP_MS, own || output.brake ? 0 : Math.max(0, lever));
        const end = motion.place;
        motion.place = before;
        const idle = stood && motion.stands;
        this.accept({ clock: moment + (idle ? IDLE_MS : STEP_MS) });
        if (!idle) this.passTo(end, this.speed);
        else motion.place = end;
    }

    /** Whether nothing moves: then a time step lasts longer. */
    get idles(): boolean { return this.motion.stands; }

    private note(): void {
        const last = this.points[this.points.length - 1];
        const point = {
            event: this.output.event,
            place: this.motion.place,
            moment: this.moment,
            speed: this.speed,
            limit: this.output.limit,
            brake: this.output.brake
        };
        if (last && last.event === point.event) this.points[this.points.length - 1] = point;
        else this.points.push(point);
    }

    /** Hands the unit the steps of a scenario as they are written, and passes the balises of this track. */
    play(scenario: Scenario): void {
        const flush = (): void => {
            this.flush();
            this.note();
        };
        for (const step of scenario.steps) {
            if ("drive" in step) {
                const [way, speed] = step.drive;
                this.motion.speed = speed / 36;
                this.motion.stands = speed === 0;
                if (way > 0) this.passTo(this.motion.place + way, speed);
                else {
                    this.motion.place += way;
                    this.reportedCm += way;
                    this.accept({ drive: [way, speed] });
                }
                this.note();
            } else if ("flush" in step) flush();
            else this.accept(step);
        }
        this.motion.speed = 0;
        this.motion.stands = false;
        if (this.life.state.pending) flush();
    }

    /** After a loss of power the train brakes by itself until it stands; answers how far it ran, in cm. */
    rollOut(): number {
        const way = this.motion.speed * this.motion.speed / (2 * Math.max(1, this.motion.train.emergency));
        this.motion.place += way;
        this.motion.speed = this.motion.braking = 0;
        this.motion.stands = true;
        return way;
    }
}

/**
 * A driver who heeds the limit, as python/gaknifur/simulation/driving.py has him: he aims below the limit as it will be
 * in some seconds.
 */
export class Heeding {
    private before = 0;

    /** How he pulls the lever, from -1 to 1. */
    lever(speed: number, limit: number): number {
        const fall = Math.max(0, ((this.before || limit) - limit) / STEP_MS * 1000);
        this.before = limit;
        const aim = limit - BELOW - LOOKS_S * fall;
        if (speed > aim) return -Math.max(LEAST, Math.min(1, (speed - aim) / BAND));
        return speed < aim - BAND / 2 ? 1 : 0;
    }
}
