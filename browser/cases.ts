// What was driven as a test case in YAML, as `./lab test` reads it (docs/reference/test-cases.md): the lives step by
// step, and as expected results what the unit answered where mode or brake changed and where a life ended.
import {BRAKE_WORDS, Output} from "./layouts";
import {Scenario, Step} from "./life";
import {indicationWords, levelText, modeWord} from "./shown";
import {CASE_WORDS} from "./texts";

/** A life that was driven. */
export interface Driven {
    scenario: Scenario;
    outputs: Output[];
    isTorn: boolean
}

const { alone, confirmed, acknowledged, cold } = CASE_WORDS;

function actionText([code = 0, ...values]: (number|string)[]): string {
    const number = Number(values[0]);
    if (code === 1) return `enter_identity: ${JSON.stringify(values[0])}`;
    if (code === 2) return `enter_running_number: ${number}`;
    if (code === 3) {
        const [length, maximum, deceleration, reaction, category] = values;
        return `enter_train_data: {length: ${length} cm, maximum: ${maximum} m/h, deceleration: ${
            deceleration} cm/s2, reaction: ${reaction} ms, category: ${category}}`;
    }
    if (code === 4) return `choose_level: ${number}`;
    if (code === 5) return `confirm: ${confirmed[number]}`;
    if (code === 10) return `acknowledge: ${acknowledged[number]}`;
    return alone[Number(code)] ?? "";
}

function stepText(step: Step): string {
    if ("telegram" in step) return `telegram: "${step.telegram}"`;
    if ("drive" in step) return `drive: ${step.drive[0]} cm at ${step.drive[1]} m/h`;
    if ("clock" in step) return `clock: ${step.clock} ms`;
    return "driver" in step ? actionText(step.driver) : "flush";
}

/** A record as an expected result has it. */
function answer(output: Output): string {
    const level = output.level === 255 ? "unknown" : levelText(output.level);
    return `{mode: ${modeWord(output.mode)}, level: ${level}, brake: ${BRAKE_WORDS[output.brake]}, limit_m_per_h: ${
        output.limit}, indications: [${indicationWords(output.indications).join(", ")}]}`;
}

/** The lines of a life's steps, and those of what is expected of it. */
function lifeLines(life: Driven, number: number): { steps: string[]; expected: string[] } {
    const steps: string[] = [], expected: string[] = [];
    let event = 0, before: Output|null = null;
    for (const step of life.scenario.steps) {
        steps.push(`      - ${stepText(step)}`);
        if ("flush" in step) continue;
        const output = life.outputs[event++], isLast = event === life.outputs.length;
        if (!output) continue;
        const changes = !before || before.mode !== output.mode || before.brake !== output.brake;
        if (changes || isLast) {
            const mark = `life_${number}_event_${event}`;
            steps.push(`      - mark: ${mark}`);
            expected.push(
                `  - {note: "life ${number}, event ${event}${isLast ? ", its last" : ""}", at: {mark: ${mark}},`,
                `     expect: ${answer(output)}}`);
        }
        before = output;
    }
    return { steps, expected };
}

/** The test case; nothing where no scenario has what was driven. */
export function caseText(name: string, lives: Driven[], slots: number): string {
    if (lives.some(life => life.isTorn) || !lives.some(life => life.outputs.length)) return "";
    const parsed = lives.map((life, n) => lifeLines(life, n + 1));
    const parts = lives.flatMap((life, n) => [`  - cold: ${cold[life.scenario.cold ?? 0]}`,
                                    parsed[n]?.steps.length ? "    steps:" : "    steps: []",
                                    ...parsed[n]?.steps ?? []]);
    return [
        "# Driven in the page. What is expected is what the unit answered; put in its place what a section asks for.",
        `test_case: ${name}`, "feature: Driven in the page", "sections: [\"4.6\"]",
        "rule: the unit answers as it did when this was driven", "starting_conditions: an empty journal",
        `slots: ${slots}`, "lives:", ...parts, "expected:", ...parsed.flatMap(one => one.expected), ""
    ].join("\n");
}
