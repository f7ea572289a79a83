// The train of a closed loop: a point that moves on level track. The same numbers as
// python/gaknifur/simulation/driving.py, operation by operation. Nothing of it is proved.

export interface Train {
    /** In cm/s2, ms and ms. */
    acceleration: number;
    service: number;
    emergency: number;
    reaction: number;
    buildUp: number;
}

export const CM_PER_S = 36;
export const LONGEST_CM = 10_000;

/** Rounds half to even, as Python does. */
export function round(value: number): number {
    const low = Math.floor(value), part = value - low;
    return part < 0.5 || (part === 0.5 && low % 2 === 0) ? low : low + 1;
}

export class Motion {
    speed = 0;
    braking = 0;
    stands = true;
    private asked: [number, number][] = [[0, 0]];

    constructor(readonly train: Train, public place = 0) {}

    /** From this moment on the brakes are asked for so much. */
    ask(moment: number, braking: number): void {
        const last = this.asked[this.asked.length - 1];
        if (!last || last[1] !== braking) this.asked.push([moment, braking]);
    }

    private due(moment: number): number {
        for (let next = this.asked[1]; next && next[0] + this.train.reaction <= moment; next = this.asked[1])
            this.asked.shift();
        return this.asked[0]?.[1] ?? 0;
    }

    private brake(wanted: number, seconds: number): number {
        if (!this.train.buildUp) {
            this.braking = wanted;
            return wanted;
        }
        const rate = 1000 * Math.max(this.train.service, this.train.emergency) / this.train.buildUp;
        const needs = Math.abs(wanted - this.braking) / rate, before = this.braking, part = Math.min(seconds, needs);
        this.braking = needs <= seconds ? wanted : before + (wanted > before ? rate : -rate) * seconds;
        return (part * (before + this.braking) / 2 + (seconds - part) * this.braking) / seconds;
    }

    /** Moves for some ms from a moment on. */
    move(moment: number, ms: number, power: number): void {
        const seconds = ms / 1000, braking = this.brake(this.due(moment), seconds);
        const change = power * this.train.acceleration - braking, before = this.speed,
              after = before + change * seconds;
        if (after > 0) this.place += (before + after) / 2 * seconds;
        else if (before) this.place += before * before / (2 * -change);
        this.speed = Math.max(0, after);
        this.stands = !before && !this.speed;
    }

    get metresPerHour(): number { return CM_PER_S * this.speed; }
}
