"""Rows of the onboard unit (tests/rows/test_onboard.row): each answer is worked out by the plain unit over the plain disk."""
from functools import lru_cache

import blocks
import rows
from disk import SECTOR_BYTES, Disk
from journal import BRAKES, KINDS, MODES, Journal, Refused, kept_in, read_block
from onboard import Unit
from row_lines import Group, combined, digest_of, ranged

MODE_NAMES = {number: name for name, number in MODES.items()}


@lru_cache(None)
def block_digest(data):
    return digest_of(data).to_bytes(8, "big")


def pairs_text(pairs):
    return "".join([f"released {len(pairs)}"] + [
        f", {number} {o.mode} {o.level} {o.brake} {o.limit} {o.indications}" for number, o in pairs])


def record_text(b, r):
    """A line of the listing."""
    kind, payload = blocks.payload(r["event"], b["format"])
    text = (f"| block {b['number']} event {r['number']} {KINDS[kind]} {MODE_NAMES[r['mode']]} {blocks.LEVELS[r['level']]} "
            f"{BRAKES[r['brake']]} {r['ind']} {payload.hex() or '-'} ")
    return text + (f"at {r['estimate']} unc {r['uncertainty']} limit {r['limit']} " if b["format"] > 1 else "")


class Session:
    """A disk, and the unit on it while it has power."""

    def __init__(self):
        self.disk, self.unit, self.kept, self.life, self.calls = Disk([]), None, Disk([]), None, 0

    def answer(self, said):
        """What a command answers; a refusal by its number and name."""
        word, _, value = said.partition(" ")
        call = getattr(self, "do_" + word.replace("-", "_"), None)
        try:
            return (call(*value.split()) if call else self.accept(word, value)) or ""
        except Refused as refused:
            return str(refused)

    # ---- disks

    def set_disk(self, disk):
        self.disk, self.unit = disk, None

    def do_format(self, slots):
        self.set_disk(Disk.of(blocks.image_of(int(slots))))

    def do_less(self):
        self.set_disk(Disk(self.disk.settled().held[:-1]))

    def do_put(self, slot, *patches):
        data = bytearray(6 * SECTOR_BYTES)
        for offset, digits in (patch.split(":") for patch in patches):
            part = bytes.fromhex(digits)
            data[int(offset):int(offset) + len(part)] = part
        self.disk.put(1 + 6 * int(slot), bytes(data))

    def do_flip(self, sector, offset, mask):
        data = bytearray(self.disk.read(int(sector)))
        data[int(offset)] ^= int(mask, 16)
        self.disk.put(int(sector), bytes(data))

    def do_keep(self):
        self.kept = self.disk.settled()

    def do_again(self):
        self.set_disk(self.kept.settled())

    def do_cut(self, number):
        self.disk.cut = self.disk.changes + int(number)

    def do_fail(self, number):
        self.disk.fail = self.disk.changes + int(number)

    def do_cut_any(self, number):
        self.disk.cut_any = self.disk.calls + int(number)

    def do_fail_any(self, number):
        self.disk.fail_any = self.disk.calls + int(number)

    def do_settle(self, *words):
        before = self.disk.settled().held
        given = {"ff": b"\xff" * SECTOR_BYTES, "zeros": bytes(SECTOR_BYTES)}
        self.set_disk(self.disk.settled([before[int(w[1:])] if w[0] == "@" else given.get(w, w) for w in words]))

    # ---- the unit

    def do_open(self, cold):
        self.unit = None
        self.unit = Unit(self.disk, cold)
        return "opened"

    def do_openings(self, times, cold):
        for _ in range(int(times)):
            last = self.answer(f"open {cold}")
            self.set_disk(self.disk.settled())
        return last

    def accept(self, word, value):
        if self.life:
            self.life[1].append((word, value))
            return ""
        if self.unit is None:
            return "no power"
        self.unit.accept(word, value)
        return "accepted"

    def do_flush(self):
        if self.life:
            self.life[1].append(("flush", ""))
            return ""
        return "no power" if self.unit is None else pairs_text(self.unit.flush())

    def do_close(self):
        if self.unit is None:
            return "no power"
        self.unit = None
        return f"{self.disk.changes} writes and syncs, faults {self.disk.faults}"

    def do_calls(self):
        before, self.calls = self.calls, self.disk.calls
        return "as many as before" if before == self.calls else "another number"

    def do_default(self):
        return "released 1, 0 SB - emergency 0 32"

    def do_live(self, cold):
        self.life = cold, []

    def do_run(self):
        (cold, steps), self.life = self.life, None
        pairs, end = [], "done"
        try:
            unit = Unit(self.disk, cold)
        except Refused as refused:
            return f"{refused}, {pairs_text(pairs)}"
        for number, (word, value) in enumerate(steps):
            try:
                pairs += unit.flush() if word == "flush" else unit.accept(word, value) or []
            except Refused as refused:
                end = f"step {number} {refused}"
                break
        return f"{end}, {pairs_text(pairs)}"

    # ---- what is on the disk

    def journal(self):
        """The journal on a copy of the disk as it is settled; power goes off."""
        self.unit = None
        copy = self.disk.settled()
        return Journal(copy), copy

    def do_blocks(self):
        journal, _ = self.journal()
        return f"{journal.first} to {journal.newest}, events {journal.found['events'] if journal.found else 0}"

    def do_kept(self, item):
        journal, _ = self.journal()
        return rows.kept_text(kept_in(journal.found), item) if journal.found else "no block"

    def loaded(self):
        journal, copy = self.journal()
        return [journal.load(copy, number) for number in range(journal.first, journal.newest + 1)]

    def do_list(self):
        text = ""
        for data in self.loaded():
            b = read_block(data)
            text += "".join(record_text(b, r) for r in b["records"]) if b else "| no block "
        return text

    def do_bytes(self):
        return f"{digest_of(b''.join(block_digest(data) for data in self.loaded())):016x}"


def written(done):
    """Commands, each with what it answers where it answers something."""
    return "; ".join(said + (" -> " + answer if answer else "") for said, answer in done)


class Reader:
    """Takes rows line by line. What is written are the lines with all that they answer, of a group with its digest."""

    def __init__(self):
        self.session, self.group, self.written, self.differences = Session(), None, [], []

    def take(self, line):
        """The answers to the commands of a line; a list of them where it stands for many."""
        word, _, rest = line.partition(" ")
        if word in ("for", "try"):
            self.written.append(line)
            return self.each(rest) if word == "for" else self.tried_each(rest)
        if line and line[0] != "#" and word not in ("group", "end"):
            return self.row(line)
        if word == "group":
            self.group = Group()
        if word == "end":
            line, self.group = f"end -> {self.group.text()}", None
        self.written.append(line)
        return []

    def each(self, each):
        return [self.answers(self.done(line)) for line in ranged(each)]

    def tried_each(self, each):
        before = {}
        return [self.answers(self.tried(line, before)) for line in combined(each)]

    def row(self, line):
        done = self.done(line)
        self.write(done)
        return self.answers(done)

    def done(self, line):
        """The commands of a line with their answers."""
        done = []
        for part in line.split(";"):
            said, _, wanted = (text.strip() for text in part.partition("->"))
            answer = self.command(said)
            done.append((said, answer))
            if wanted and wanted != answer:
                self.differences.append(f"{line}: wanted {wanted}, found {answer} by the plain program")
        return done

    def tried(self, line, before):
        """A row that begins as one before it, up to a `settle`, goes on from there: what is settled isn't changed by it."""
        parts = [part.strip() for part in line.split(";")]
        settled = [place for place, said in enumerate(parts) if said.startswith("settle")]
        begun = next((place for place in reversed(settled) if tuple(parts[:place]) in before), 0)
        done = []
        if begun:
            done, session = before[tuple(parts[:begun])]
            done, self.session.__dict__ = done[:], dict(session)
        for place in range(begun, len(parts)):
            if place in settled:
                before[tuple(parts[:place])] = done[:], dict(self.session.__dict__)
            done.append((parts[place], self.command(parts[place])))
        return done

    def command(self, said):
        return self.session.answer(said).strip()

    def write(self, done):
        """Writes a line of its own: in a group without the answers."""
        self.written.append("; ".join(said for said, _ in done) if self.group else written(done))

    def answers(self, done):
        """The answers to a line's commands; a group takes them."""
        answers = [answer for _, answer in done]
        if self.group:
            self.group.take("; ".join(answers))
        return answers
