"""The desk: driving leaves the same image as `etcs run` on the same scenarios."""
import base64
import json
import random
from fractions import Fraction
from pathlib import Path
from typing import Any

from browsing import Browser
from gaknifur import program, unit
from gaknifur.simulation import driving
from gaknifur.simulation.drives import Train

SLOTS = 2048
TOP = Path(__file__).resolve().parents[2]
EXAMPLES = ("full_supervision", "trip", "on_sight", "staff_responsible", "power_cut", "linking_fault")
CUT_LIVES = 300
TRACKS_TRIED = 40
TELEGRAMS = ("90007F802001432024A6007FE007D002B00D900010000DC03A400018801FE0", "90007F802001506023A0E04B0064427F80",
             "90007F802001432024A6007FE0025802B00D900010000DC03A400018801FE0", "90007F802001FFC0", "00", "90007F80")
START = ("enter-identity", "level-1", "enter-train", "start")


def etcs(*words: str) -> list[str]:
    """What a run of `etcs` prints, which has to end well."""
    status, lines = program.etcs(*words)
    assert status == 0, (words, status, lines[-1:])
    return lines


def image_of(folder: Path, scenarios: list[Any], slots: int = SLOTS) -> tuple[bytes, list[str]]:
    """The image that `etcs run` makes of some scenarios, one life after the other, and what it prints."""
    image, printed = folder / "image", []
    etcs("format", str(image), str(slots))
    for scenario in scenarios:
        path = folder / "scenario.json"
        path.write_text(json.dumps(scenario), encoding="utf-8")
        printed += etcs("run", str(path), str(image))
    return image.read_bytes(), printed


def saved(browser: Browser) -> list[Any]:
    """The scenarios that the page saves."""
    return [one["scenario"] for one in browser.run("return JSON.parse(JSON.stringify(window.gaknifur.drive.lives()))")]


def board(browser: Browser, name: str) -> None:
    """Chooses the track of an example."""
    browser.run("const s = document.getElementById('track'), o = [...s.options].find(o => o.text === arguments[0]);"
                "s.value = o.value; s.dispatchEvent(new Event('change'))", name)


def name_of(browser: Browser, example: str) -> str:
    """The name under which the page has an example."""
    index = EXAMPLES.index(example)
    names = browser.run("return [...document.getElementById('track').options].map(o => o.text).filter(t => t.startsWith('Example'))")
    assert len(names) == len(EXAMPLES)
    return str(names[index])


def stories(browser: Browser, _page: Path, folder: Path) -> int:
    """The story of each example is shown, and played by its button leaves the image of its own files."""
    for example in EXAMPLES:
        board(browser, name_of(browser, example))
        story = (TOP / "examples" / example / "session.row").read_text(encoding="utf-8").splitlines()[0].removeprefix("# ")
        assert browser.text("track-text").startswith(story), (example, browser.text("track-text"))
        browser.click("story")
        assert browser.text("drive-error") == ""
        files = [TOP / "examples" / example / name for name in ("scenario.json", "restart.json")]
        wanted, printed = image_of(folder, [json.loads(path.read_bytes()) for path in files if path.exists()])
        assert browser.image() == wanted, example
        events = browser.run("return window.gaknifur.drive.course.lives.flatMap(life => life.outputs.map(o => [o.event, o.limit]))")
        outputs = [line.split() for line in printed]
        assert events == [[int(words[1]), int(words[9])] for words in outputs], example
    return len(EXAMPLES)


def by_buttons(browser: Browser, _page: Path, folder: Path) -> int:
    """Three tracks, driven by the buttons, with a cut of power in the midst: the scenarios that are saved give the same image."""
    count = 0
    for number in range(3):
        browser.run("window.gaknifur.drive.board(arguments[0])", number)
        browser.click(*START, "full")
        browser.run("for (let n = 0; n < 60; n++) document.getElementById('one-step').click()")
        browser.click("slow")
        browser.run("for (let n = 0; n < 100; n++) document.getElementById('one-step').click()")
        word = number % 3
        browser.click("cut", "cut-now", f"up-{word}", "confirm-1", "confirm-3", "confirm-4", "level-1", "start", "full")
        browser.run("for (let n = 0; n < 30; n++) document.getElementById('one-step').click()")
        scenarios = saved(browser)
        assert len(scenarios) == 2 and scenarios[1].get("cold", 0) == word
        assert len(scenarios[0]["steps"]) > 300
        assert browser.image() == image_of(folder, scenarios)[0], number
        count += 1
    return count


def by_time(browser: Browser, _page: Path, folder: Path) -> int:
    """Time at 16 times, with a driver who heeds the limit up to the end of authority, and no brake's emergency."""
    board(browser, name_of(browser, "full_supervision"))
    browser.click(*START, "heed", "time-16")
    browser.until("const c = window.gaknifur.drive.course; return c.motion.place > 80000 && c.motion.speed < 300 || c.output.brake === 2")
    browser.click("time-0")
    place, brake = browser.run("const c = window.gaknifur.drive.course; return [c.motion.place, c.output.brake]")
    assert 80_000 < place < 100_000 and brake < 2, (place, brake)
    browser.until("return document.getElementById('limit-cause').textContent.includes('end of authority')")
    assert browser.image() == image_of(folder, saved(browser))[0]
    return 1


def random_steps(dice: random.Random) -> list[Any]:
    """The steps of a life."""
    steps: list[Any] = [{"driver": [1, "IC 704"]}, {"driver": [4, dice.choice((0, 1, 1, 1))]}, {"driver": [3, 20000, 160000, 70, 0, 15]},
                        {"telegram": TELEGRAMS[0]}, {"driver": [6]}] if dice.random() < 0.7 else []
    moment = 0
    for _ in range(dice.randrange(40)):
        kind = dice.randrange(10)
        if kind < 5:
            speed = dice.choice((0, 10000, 40000, 90000, 130000))
            steps.append({"drive": [dice.randrange(-200, 10001) if speed else 0, speed]})
        elif kind < 6:
            moment += dice.randrange(6000)
            steps.append({"clock": moment})
        elif kind < 8:
            steps.append({"telegram": dice.choice(TELEGRAMS)})
        else:
            steps.append({"driver": dice.choice(([6], [7], [8], [9], [10, 1], [10, 2], [5, 1], [5, 3], [5, 4], [11], [2, 99], [4, 1]))})
        if dice.random() < 0.2:
            steps.append({"flush": True})
    return steps


def random_groups(dice: random.Random, count: int) -> list[Any]:
    """So many groups of one to three balises."""
    return [{"at": dice.randrange(1, 300) * 100, "spacing": dice.randrange(1, 13) * 100,
             "balises": [dice.choice(TELEGRAMS) for _ in range(dice.randrange(1, 4))]} for _ in range(count)]


WITH_CUTS = """
const { calls } = window.gaknifur, { Life, formatted, openAt } = window.gaknifur.parts, [slots, lives] = arguments;
const medium = calls.hold(formatted(calls, slots)), found = [];
for (const { cold, steps, cut } of lives) {
    const life = new Life(calls, medium, cold);
    for (const step of steps) life.accept(step);
    if (!cut) life.cut();
    else {
        const list = life.prepare(), index = Math.min(cut.request, list.length - 1);
        life.cutWithin(list, index, cut.left.slice(0, list[openAt(list, index)].request.sectors));
    }
    found.push(life.outputs.map(o => [o.event, o.mode, o.level, o.brake, o.limit, o.indications]));
}
const bytes = calls.bytesOf(medium);
calls.drop(medium);
return [btoa(String.fromCharCode(...bytes)), found];
"""


class Lost(Exception):
    """Power is lost."""


class Cut(unit.MemoryMedium):
    """A medium that loses power within a request: of the write that is open then each sector is left as `left` says."""

    left: list[str] | None = None
    request = 0
    open: tuple[int, bytes, bytes] = (0, b"", b"")

    def lose(self) -> None:
        """The last request, where it is the one."""
        if self.left is None:
            return
        if self.request == 0:
            sector, old, new = self.open
            for number, left in enumerate(self.left[:len(new) // 512]):
                foreign = bytes(((sector + number) * 31 + n * 17 + 0x5a) & 0xff for n in range(512))
                data = {"old": old, "new": new}.get(left, b"")[512 * number:512 * (number + 1)] or foreign
                super().write(sector + number, data)
            raise Lost
        self.request -= 1

    def write(self, sector: int, data: bytes) -> None:
        self.open = sector, bytes(self.data[512 * sector:512 * sector + len(data)]), data
        self.lose()
        super().write(sector, data)

    def sync(self) -> None:
        self.lose()


def act(one: unit.Unit, step: dict[str, Any]) -> None:
    """Gives the unit of the library for C the inputs of a step of a scenario."""
    (word, value), = step.items()
    if word == "telegram":
        one.telegram(bytes.fromhex(value))
    elif word == "drive":
        one.odometer(*value)
    elif word == "clock":
        one.clock(value)
    elif value[0] == 1:
        one.identity(value[1])
    elif value[0] == 2:
        one.running_number(value[1])
    elif value[0] == 3:
        one.train_data(unit.TrainData(*value[1:]))
    else:
        codes = {4: (unit.Action.CHOOSE_LEVEL_0, unit.Action.CHOOSE_LEVEL_1), 5: driving.CONFIRMS, 10: driving.ACKNOWLEDGES}
        one.action(codes[value[0]][value[1]] if len(value) > 1 else driving.WITHOUT_VALUE[value[0]])


def by_library(slots: int, lives: list[dict[str, Any]]) -> tuple[bytes, list[Any]]:
    """The image and the outputs of lives that end by a cut, by the library for C."""
    medium, found = Cut(unit.MemoryMedium.formatted(slots).read()), []
    for life in lives:
        one, pending, outputs = unit.Unit(medium, unit.Cold(life["cold"])), 0, []
        one.open()
        for step in life["steps"]:
            if "flush" in step or pending == 8:
                outputs += one.flush()
                pending = 0
            if "flush" not in step:
                act(one, step)
                pending += 1
        if life["cut"]:
            medium.left, medium.request = life["cut"]["left"], life["cut"]["request"]
            try:
                one.flush()
            except Lost:
                pass
            medium.left = None
        one.close()
        found.append([[o.event, o.mode, o.level, o.brake, o.limit_m_per_h, o.indications] for o in outputs])
    return medium.read(), found


def against_c(browser: Browser, _page: Path, _folder: Path) -> int:
    """Random lives that end by a cut, between two writes or within one, leave the bytes and released the outputs of the library for C."""
    dice, count, torn = random.Random(689), 0, 0
    while count < CUT_LIVES:
        cuts = [{"request": dice.randrange(4), "left": dice.choices(("old", "new", "foreign"), k=8)} if dice.random() < 0.6 else None for _ in range(5)]
        lives = [{"cold": dice.randrange(3), "steps": random_steps(dice) + [{"driver": [2, 7]}], "cut": cut} for cut in cuts]
        slots = dice.choice((2, 3, 7, 16))
        text, found = browser.run(WITH_CUTS, slots, lives)
        wanted, outputs = by_library(slots, lives)
        assert base64.b64decode(text) == wanted and found == outputs, (count, slots, lives)
        count += len(lives)
        torn += sum(life["cut"] is not None for life in lives)
    assert torn > CUT_LIVES / 2
    return count


TRACKS = """
const { calls } = window.gaknifur, { Course, balisesOf, formatted } = window.gaknifur.parts, [scenario] = arguments;
const medium = calls.hold(formatted(calls, 64));
const course = new Course(calls, medium, { acceleration: 60, service: 70, emergency: 100, reaction: 0, buildUp: 0 },
    balisesOf(scenario.groups), 0);
course.play(scenario);
course.life.cut();
const bytes = calls.bytesOf(medium);
calls.drop(medium);
let text = '';
for (let n = 0; n < bytes.length; n += 32768) text += String.fromCharCode(...bytes.subarray(n, n + 32768));
return btoa(text);
"""


def tracks(browser: Browser, _page: Path, folder: Path) -> int:
    """Groups of one to three balises at random, and a train that passes them forward: as `etcs run` has it."""
    dice = random.Random(12)
    for number in range(TRACKS_TRIED):
        groups = random_groups(dice, dice.randrange(1, 4))
        steps: list[Any] = [{"driver": [1, "IC 704"]}, {"driver": [4, 1]}, {"driver": [3, 20000, 160000, 70, 0, 15]}, {"driver": [6]}]
        for _ in range(6):
            steps += [{"drive": [dice.choice((100, 500, 1300, 2600, 12000, 0)), dice.choice((9000, 30000))]}] + [{"flush": True}] * dice.randrange(2)
        scenario = {"groups": groups, "steps": steps}
        assert base64.b64decode(browser.run(TRACKS, scenario)) == image_of(folder, [scenario], 64)[0], (number, scenario)
    return TRACKS_TRIED


TORN = """
const { calls } = window.gaknifur, { Life, formatted, openAt } = window.gaknifur.parts, [steps, more, request, left] = arguments;
const medium = calls.hold(formatted(calls, 5));
const life = new Life(calls, medium, 0);
for (const step of steps) life.accept(step);
life.flush();
const released = life.outputs.map(o => o.event);
for (const step of more) life.accept(step);
const list = life.prepare(), index = Math.min(request, list.length - 1);
life.cutWithin(list, index, left.slice(0, list[openAt(list, index)].request.sectors));
const bytes = calls.bytesOf(medium);
let status = 0;
try { const next = new Life(calls, medium, 0); next.cut(); } catch (error) { status = error.status ?? -1; }
calls.drop(medium);
return [btoa(String.fromCharCode(...bytes)), released, status, list.length];
"""


def torn(browser: Browser, _page: Path, folder: Path) -> int:
    """Power that is lost within a write, each open sector old, new or foreign: `etcs run` opens it, and has all that was released."""
    dice, count = random.Random(7), 0
    steps = [{"driver": [1, "IC 704"]}, {"driver": [4, 1]}, {"driver": [3, 20000, 160000, 70, 0, 15]}, {"driver": [6]},
             {"drive": [3000, 20000]}, {"flush": True}, {"drive": [100, 20000]}]
    more = [{"clock": 500}, {"drive": [2000, 20000]}]
    for number in range(48):
        left = [dice.choice(("old", "new", "foreign")) for _ in range(8)]
        text, released, status, length = browser.run(TORN, steps, more, number % 8, left)
        assert status == 0 and length >= 4, (number, left, status)
        image = folder / "torn"
        image.write_bytes(base64.b64decode(text))
        etcs("run", str(TOP / "examples/power_cut/restart.json"), str(image))
        lines = etcs("journal", str(image))
        listed = {int(line.split()[3]) for line in lines}
        kept, request = any(" clock " in line for line in lines), min(number % 8, length - 1)
        if request < 2 or left[0] != "foreign":  # the gate is the third write of the list, a sync follows it
            assert kept == (request >= 2 and left[0] == "new"), (number, left, kept)
        oldest = min(listed)
        assert released and all(event in listed for event in released if event >= oldest), (number, left)
        assert {event for event in listed if event > max(released)}, number
        count += 1
    return count


def motion(browser: Browser, _page: Path, _folder: Path) -> int:
    """The train of the page is that of the closed loop, bit by bit."""
    dice, count = random.Random(3), 0
    for _ in range(20):
        numbers = [dice.choice((37.0, 50.0, 60.0)), dice.choice((70.0, 90.0)), dice.choice((90.0, 110.0)), dice.choice((0, 400)), dice.choice((0, 1500, 2000))]
        asked = [(dice.choice((0.0, 30.0, 70.0, 90.0)), dice.choice((0.0, 0.5, 1.0))) for _ in range(60)]
        train = Train(numbers[0], numbers[1], numbers[2], int(numbers[3]), int(numbers[4]), Fraction(1))
        it, wanted = driving.Motion(train), []
        for step, (braking, power) in enumerate(asked):
            it.command(200 * step, braking)
            it.move(200 * step, 200, power)
            wanted.append([it.place, it.speed, it.braking, it.stands, round(it.m_per_h)])
        found = browser.run("""const { Motion, round } = window.gaknifur.parts, [n, asked] = arguments, result = [];
            const it = new Motion({ acceleration: n[0], service: n[1], emergency: n[2], reaction: n[3], buildUp: n[4] });
            asked.forEach(([braking, power], step) => { it.ask(200 * step, braking); it.move(200 * step, 200, power);
            result.push([it.place, it.speed, it.braking, it.stands, round(it.metresPerHour)]); }); return result""", numbers, asked)
        assert found == wanted
        count += len(wanted)
    return count


def offers(browser: Browser, _page: Path, _folder: Path) -> int:
    """What is owed is a button; the keys do what the buttons do; the dialog of a cut within a write cuts there."""
    board(browser, name_of(browser, "on_sight"))
    browser.click(*START, "heed")
    assert browser.text("drive-error") == "", browser.text("drive-error")
    browser.click("start")
    assert browser.text("drive-error") == "Accepted in Stand By, Post Trip; the mode is Full Supervision.", browser.text("drive-error")
    browser.run("for (let n = 0; n < 2000 && !document.getElementById('acknowledge-2'); n++) window.gaknifur.drive.step(),"
                " window.gaknifur.drive.render(true)")
    browser.click("acknowledge-2")
    assert not browser.run("return document.getElementById('acknowledge-2')")
    browser.run("document.activeElement.blur(); for (const key of ['p', 'r', 'ArrowDown', '?'])"
                " document.body.dispatchEvent(new KeyboardEvent('keydown', { key, bubbles: true }))")
    assert browser.run("return document.getElementById('help').open && document.getElementById('lever').value === '-10'")
    browser.run("document.getElementById('help').close()")
    browser.click("cut", "cut-within")
    browser.run("document.querySelectorAll('#cut-choices input')[2].click()")
    browser.click("cut-here")
    assert browser.run("return window.gaknifur.drive.course.life.isTorn") and browser.text("mode") == "off"
    browser.click("up-0")
    assert browser.text("mode") == "Stand By" and browser.text("brake") == "emergency brake"
    browser.until("return document.getElementById('causes').textContent.includes('has not revalidated')")
    return 6


CHECKS = {"stories": (stories, 6), "by_buttons": (by_buttons, 3), "by_time": (by_time, 1),
          "against_c": (against_c, CUT_LIVES), "tracks": (tracks, TRACKS_TRIED),
          "torn": (torn, 48), "motion": (motion, 1200), "offers": (offers, 6)}
