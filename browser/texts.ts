// The texts of the page, but for those that layouts.ts has.
import {MODES} from "./layouts";

export const BRAKES = ["no brake", "service brake", "emergency brake"];
export const KINDS = ["", "power-up", "telegram", "odometer", "clock", "driver"];
/** The first cause of a limit that lies ahead, and the two release speeds. */
export const AHEAD = 13, RELEASE = 19, NATIONAL_RELEASE = 20;

export const STATUSES: Record<number, string> = {
    1: "the device failed",
    2: "the image isn't formatted: its first sector isn't that of a journal",
    3: "the image is damaged: its size isn't that of its slots, or the newest block can't be read",
    4: "there is no memory",
    6: "the journal is worn out",
    10: "eight events are pending",
    11: "the moment lies before the last one",
    12: "there is no memory",
    13: "the medium failed",
    21: "the medium failed",
    22: "requests are owed",
    23: "the journal is worn out",
    31: "this isn't the image of a journal: its first sector isn't that of one, or there is none",
    32: "the size of the image isn't that of its slots, so no journal is read; its slots are shown",
    36: "there is no such block",
    37: "there is no such record",
    39: "the life of this event can't be run again",
    255: "a number or a length is outside its limits",
};
export const SLOTS: [string, string][] = [
    ["empty", "all its bytes are zero"],
    ["block", "holds a block that can be read"],
    ["unreadable", "its head has this number, but its bytes spell no block"],
    ["misplaced", "its head has a number that belongs to another slot"],
    ["foreign", "its gate is open, and its head begins with no mark and number"],
    ["unwritten", "the block after the newest, after a closed gate: none of its outputs was released"],
    ["replaced", "an older block, whose gate was closed to write another one over it"],
    ["remains", "its gate is closed, and after it are neither zeros nor a block"],
];
export const SLOT_SYMBOLS = ["", "", "unreadable", "misplaced", "foreign", "unwritten", "replaced", "remains"];
export const VERDICTS = [
    "", "agrees", "a record differs", "the head of a block differs",
    "can't be run again: what was kept before its power-up was overwritten",
    "can't be run again: blocks or events are missing before",
    "can't be replayed: no head contains what was kept before its power-up",
    "can't be run again: it follows a record that differs"
];
export const RECORD_FIELDS = [
    "", "event", "word", "moment", "mode", "level", "brake", "indications", "place and limit", "place", "uncertainty",
    "limit"
];
export const KEPT_FIELDS = [
    "", "events", "lives", "trip outstanding", "identity", "running number", "train data", "level", "position",
    "national values", "countries"
];
export const WORDS = ["nobody knows whether the train moved", "the train was moved", "the train was not moved"];
export const DATUM = ["unknown", "valid", "invalid"];
export const SUBJECTS = ["", "the identity", "the running number", "the train data", "the level"];
export const KINDS_OWED = ["", "the trip", "On Sight", "Shunting", "level 0"];
export const PLAIN_ACTIONS: Record<number, string> = {
    6: "starts",
    7: "chooses Shunting",
    8: "leaves Shunting",
    9: "overrides the trip",
    11: "closes the desk",
};
export const TELEGRAM_FAULTS = [
    "", "Truncated", "WrongLength", "Spare", "OutOfRange", "WrongVersion", "NotUplink", "NotBalise", "NoEnd", "TooLong"
];

/** Findings of the guard that demand a stop, by their numbers. */
export const STOPS: Record<number, string> = {
    1: "packet 137, stop if in SR",
    2: "packet 132, danger for SH",
    11: "a telegram of a greater version",
    14: "a refused telegram of a group that isn't linked",
};

export const SAY = {
    demandsStop: (what: string): string => `The guard demands a stop: ${what}`,
    old: "This browser has no WebAssembly with memories of 64 bits. Chromium has it since 133, Firefox since 134.",
    loading: "The page is loading.",
    printed: (build: string, utc: string): string =>
        `Gaknifur ${build}. Printed at ${utc}, by the clock of this computer.`,
    noBrake: "No brake is commanded.",
    noCause: "The cause isn't known yet.",
    notReplayed: "The cause is unknown: the beginning of this life was overwritten or can't be read.",
    whyNot: (reason: string): string => `The cause is unknown: ${reason}.`,
    slow: (event: number): string => `As of event ${event}.`,
    refused: (what: string): string => `The unit refuses this: ${what}. Nothing changed.`,
    tooBig: (name: string): string =>
        `${name} isn't read: it has more than 512 MB, and the page reads images up to that size.`,
    tooSmall: (name: string): string => `${name} isn't an image: it has less than one sector of 512 bytes.`,
    noImage: (name: string, why: string): string => `${name}: ${why}.`,
    oneOnly: (files: number): string =>
        `${files} files were handed over, and none is read: the page reads one image at a time.`,
    bySlots: (slots: number): string => `By its size it could have ${slots.toLocaleString("en")} slots. ` +
        "Enter their number to read it as if its first sector said so; the file stays as it is.",
    cutOff: (name: string, bytes: number, slots: number, expected: number): string =>
        `${name} ends early: by its first sector it has ${slots.toLocaleString("en")} slots, so ` +
        `${expected.toLocaleString("en")} bytes, ` +
        `and here are ${bytes.toLocaleString("en")}. Copy it from the medium again. If that can't be done, the ring ` +
        `shows each slot that is here; and in a copy lengthened with zeros (truncate -s ${expected} COPY) the ` +
        "journal can be read up to its newest block.",
    tooShort: (name: string, bytes: number, slots: number, expected: number): string =>
        `${name}: ${slots.toLocaleString("en")} slots have ${expected.toLocaleString("en")} bytes, ` +
        `and here are ${bytes.toLocaleString("en")}.`,
    tooLong: (name: string, bytes: number, slots: number, expected: number): string =>
        `${name} is longer than its journal: by its first sector it has ${slots.toLocaleString("en")} slots, so ` +
        `${expected.toLocaleString("en")} bytes, and here are ${bytes.toLocaleString("en")}. ` +
        "Its first bytes can be read; the file stays as it is.",
    assumed: "entered by hand",
    unreadableFile: "the browser can't read it; perhaps it is a folder, or was moved, altered or removed " +
        "since it was chosen",
    notScenario: (name: string, why: string): string => `${name} isn't a scenario that etcs run reads: ${why}.`,
    noCase: "There is no test case of this: nothing was driven yet, or a life ended within a write.",
    caseTooLong:
        "There is no test case of this: the ring of the desk was written over, so its lives can't be run again.",
    ownText: "A scenario of your own. Its groups lie on the track; its steps are its story.",
    reading: "The image is read.",
    /** `all` is 0 where it isn't known. */
    progress: (done: number, all: number, what: string): string => all ? `${what}: ${done} of ${all}`
        : done                                                         ? `${what}: ${done}`
                                                                       : `${what} …`,
    whole: "Each slot is as a unit leaves it, and no block of the journal is missing.",
    wholeButDiffers: "Each slot can be read, and no block of the journal is missing; but the replay differs.",
    notWhole: "Not whole: the slots say what is lost.",
    agrees: "The kernel would have answered so to each event that is run again.",
    differs: "The kernel would have answered otherwise.",
    authentic: "Agreement means that the journal is consistent with this kernel, and not that it is authentic.",
    noRecord: "No record can be read.",
    unknown: "unknown",
    notRecorded: "not recorded",
    ran: (m: string): string => `Without power the train ran on for ${m}, and stands.`,
    powerOff: "Power is off. Say what is known of movements, and power up.",
    kept: "What the unit kept",
    torn: "This life ended within a write. No scenario can say so; the image has it.",
};

/** "In brief" of an image, as the report has it. */
export const BRIEF = {
    notYet: "not known yet …",
    recordDiffers: "the record differs from what the kernel answers",
    noReplay: "its life can't be run again",
    causeNotKnown: (reason: string): string => `cause not known: ${reason}`,
    none: "none",
    noIntervention: "none but what each power-up commands",
    earlier: (trips: number): string => `${trips} earlier one${trips === 1 ? "" : "s"}`,
    notKnown: "not known: the newest block can't be read",
    powerUp: (block: string): string =>
        `block ${block}, the newest, holds only a power-up, whose output is never released`,
    released: (block: string): string => `the outputs of block ${block}, the newest, had left the unit: ` +
        "it had begun to write a further block of the same life",
    left: (life: number, event: string): string =>
        `the outputs of life ${life} after its power-up, up to event ${event}, had left the unit; `,
    outputsNotKnown: "not known",
    outputs: (block: string, first: string, last: string): string => `: the outputs of block ${
        block}, the newest, of events ${first} to ${last}; nothing in the image shows that they left the unit`,
    unwritten: (block: string, first: string, last: string): string =>
        `None of the outputs of block ${block}, events ${first} to ${last}, left the unit: it was being written`,
    powerUps: (number: number): string => `${number}; after each the emergency brake is commanded until ` +
        "the driver has revalidated, which isn't counted as an intervention",
};

/** The editor of tracks. */
export const EDIT = {
    own: "Your own: ",
    begin: "Where the train begins",
    train: "train",
    kinds: {good: "the unit takes its telegrams", warn: "the unit skips packets", bad: "a telegram is refused"},
    signs: {good: "", warn: " ?", bad: " !"},
    group: (number: number, place: string): string => `Group ${number}, at ${place}`,
    balise: (number: number): string => `Balise ${number}, by its variables or in hex`,
    variables: (number: number): string => `Balise ${number}, each variable by itself`,
    removeBalise: (number: number): string => `Remove balise ${number}`,
    cantDrive: (place: string, balise: number, says: string): string => `At ${place}, balise ${balise}: ${says}`,
    newTelegram: "NID_BG 9; 65: NID_TSR 1, D_TSR 200, L_TSR 100, Q_FRONT 1, V_TSR 8",
};

/** What the unit makes of a telegram. */
export const JUDGED = {
    refused: (fault: number, name: string): string => `The unit refuses this telegram: ${fault} ${name}.`,
    skipped: (packets: number[]): string =>
        `The unit skips packet${packets.length > 1 ? "s" : ""} ${packets.join(", ")}.`,
    infill: "It uses nothing after packet 136.",
    obeyed: (packets: number): string => `The unit takes this telegram: ${packets} packet${packets === 1 ? "" : "s"}.`,
};

/** The variables of a telegram. */
export const FORM = {
    header: "Header",
    heads: ["variable", "number", "is", "bits", "their digits"],
    skipped: "The unit skips this packet.",
    noName: "no name",
    noLayout: "No layout is known of this packet: its bits stay together.",
    headAlone: "a head alone",
    tooShort: "Its bits end before its layout does.",
    otherLength: (bits: number): string => `Its layout has ${bits} bits, and its L_PACKET says another number.`,
    rest: (first: number, last: number): string => `Bits ${first} to ${last}, which no variable has: `,
    noNumber: (name: string, text: string): string => `${name}: "${text}" is no number`,
    bad: "the fault is here",
    end: (bit: number): string => `The end mark is at bit ${bit}.`,
    noEnd: "No end mark is found",
    remove: (packet: number): string => `Remove packet ${packet}`,
    add: "Add a packet…",
    /** What a packet that the kernel uses begins with. */
    packets: [
        "3: D_VALIDNV 0, NID_C 1, V_NVSHUNT 6, V_NVSTFF 8, V_NVONSIGHT 6, V_NVUNFIT 20, V_NVREL 8, D_NVROLL 2, " +
            "V_NVALLOWOVTRP 0, V_NVSUPOVTRP 6, D_NVOVTRP 200, T_NVOVTRP 60, D_NVSTFF 32767",
        "5: D_LINK 500, NID_BG 10, Q_LINKORIENTATION 1, Q_LINKREACTION 1, Q_LOCACC 5",
        "12: V_MAIN 24, L_ENDSECTION 1000",
        "21: D_GRADIENT 0, Q_GDIR 1, G_A 0",
        "27: D_STATIC 0, V_STATIC 24, Q_FRONT 1",
        "41: D_LEVELTR 500, M_LEVELTR 0, L_ACKLEVELTR 200",
        "65: NID_TSR 2, D_TSR 300, L_TSR 100, Q_FRONT 1, V_TSR 8",
        "66: NID_TSR 2",
        "80: D_MAMODE 500, M_MAMODE 0, V_MAMODE 6, L_MAMODE 200, L_ACKMAMODE 200",
    ],
};

/** The words of a test case (docs/reference/test-cases.md), by the numbers of a scenario and of an output. */
export const CASE_WORDS = {
    alone: {6: "start", 7: "choose_shunting", 8: "leave_shunting", 9: "override", 11: "close_desk"} as
        Record<number, string>,
    confirmed: ["", "identity", "running_number", "train_data", "level"],
    acknowledged: ["", "trip", "on_sight", "shunting", "level_0"],
    cold: ["unknown", "moved", "not_moved"],
};

/** Each step of a start of mission, as long as it isn't done and from then on. */
export const MISSION = [
    ["the identity isn't known yet", "the identity is known"], ["the level isn't valid yet", "the level is valid"],
    ["the train data aren't known yet", "the train data are known"],
    ["the mission hasn't begun yet", "the mission has begun"]
];
/** Why a button would have no effect, and the modes in which the driver's table accepts an action. */
export const IDLE = {
    off: "Power is off",
    startFirst: "The emergency brake is commanded until the four steps are done",
    braked: "A brake is commanded, so the train stands",
    moves: "Only at standstill",
    unknown: "Nothing is known to confirm; enter it",
    mode: (wanted: string, mode: string): string => `Accepted in ${wanted}; the mode is ${mode}`,
    modes: {
        "enter-identity": [6],
        "enter-running": [6],
        "level-1": [6],
        "level-0": [6],
        "enter-train": [6],
        "confirm-1": [6],
        "confirm-2": [6],
        "confirm-3": [6],
        "confirm-4": [6],
        "start": [6, 8],
        "shunting": [6, 0, 1, 2, 4, 8],
        "leave": [3],
        "override": [0, 1, 2, 8],
        "close": [0, 1, 2, 3, 4, 8]
    } as Record<string, number[]>,
};
export function modeIn(modes: number[]): string { return modes.map(mode => MODES[mode]?.[1] ?? "").join(", "); }
/** An entry of the driver that is outside its limits. */
export const ENTRY = {
    identity: "The identity has 1 to 16 letters, digits and other characters of ASCII. Nothing was entered.",
    limits: (what: string, least: string, most: string, scale: number): string => `${what}: a ${
        scale === 1 ? "whole number" : `number with up to ${Math.log10(scale)} decimals`} from ${least} to ${most}. ` +
        "Nothing was entered.",
    event: (event: string): string => `Events are whole numbers from 0 on, and "${event}" is none.`,
    place: (least: string, most: string): string =>
        `A number of metres with up to 2 decimals from ${least} to ${most} is wanted. Nothing was changed.`,
    slots: "A number of slots is from 2 to 1,048,576. Nothing was read.",
    readFirst: (bytes: number): string => `Read the first ${bytes.toLocaleString("en")} bytes`,
};
export const NOTHING_TO_DRAW = "Nothing to draw: all events have one value here.";
export const OWED: [number, number, string][] = [
    [1, 8, "Acknowledge the trip"],
    [2, 1, "Acknowledge On Sight"],
    [3, 2, "Acknowledge Shunting"],
    [4, 4, "Acknowledge level 0"],
];
