// The texts of an inquiry: the verdict, whether the train braked, and the signals of an image. The sentences of the
// verdict are those of `lab check` (docs/reference/lab.md).
import {Braking} from "./braking";

/** The members of a record, and of what a head keeps, as `etcs_lab replay` names them. */
export const RECORD_NAMES = [
    "", "event", "word", "time_ms", "mode", "level", "brake", "indications", "place", "place_cm", "uncertainty_cm",
    "limit_m_per_h"
];
export const KEPT_NAMES = [
    "", "events", "lives", "trip_outstanding", "identity", "running_number", "train", "level", "position",
    "national_values", "countries"
];

export const VERDICT = {
    noEvents: (why: string): string => `no event can be listed: ${why}`,
    notWhole: "something is lost, damaged or contradicts",
    differs: (life: number, where: string, field: string, more: number): string =>
        `the replay differs: life ${life}, ${where}, in ${field}${more ? `, and ${more} more` : ""}`,
    event: (event: number): string => `event ${event}`,
    head: (block: number): string => `the head of block ${block}`,
    notReplayed: (first: number, last: number, more: number, reason: string): string =>
        `events ${first} to ${last} can't be replayed${more ? `, and ${more} more runs` : ""}: ${reason}`,
    reasons: {
        5: "blocks or events are missing before",
        6: "no head contains what was kept before its power-up",
        7: "they follow a record that differs"
    } as Record<number, string>,
    none: "nothing is lost, damaged or contradicts, and the replay finds no difference",
};

export const BRAKED = {
    heads: ["events", "command", "speed", "answer", "slows down after", "rate", "until", "promised", "compared"],
    answers: {
        standing: "the train stands",
        too_few: "too few readings",
        not_slowed: "isn't seen to slow down",
        slowed: "slows down",
        stopped: "stops"
    } as Record<Braking["answer"], string>,
    ends: {standstill: "standstill", released: "released", changed: "changed", end: "end of the records"} as
        Record<Braking["until"], string>,
    words: {kept: "kept", broken: "broken", not_sure: "not sure"},
    none: "No brake is commanded.",
    noTrain: "no train data",
    trip: (event: string): string => `trip at event ${event}`,
    more: (shown: string, all: string): string => `The last ${shown} of ${all}.`,
};

export const VIEW = {
    axes: {moment: "Time of each life", place: "Place", event: "Event"},
    units: {moment: "s of the life", place: "m", event: "event"},
    lanes: {place: "place", moment: "time", brake: "brake", mode: "mode", level: "level", events: "events"},
    brakes: ["", "service", "emergency"],
    life: (number: number): string => `life ${number}`,
    several: "several",
    seen: (events: string, all: string): string => `${events} of ${all} events are in the window.`,
    leftOut: (events: number): string => ` ${events.toLocaleString("en")} event${
        events === 1 ? " has no place and isn't" : "s have no place and aren't"} drawn.`,
    noPlaces: "no place is recorded",
    cursor: (speed: string, limit: string, brake: string, mode: string, level: string, place: string, moment: string):
        string => `At the cursor: speed ${speed}; limit, which is the permitted speed, ${limit}; ${brake}; ${
            mode}; level ${level}; front ${place}; moment ${moment}.`,
};
