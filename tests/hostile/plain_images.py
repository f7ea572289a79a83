"""What the program answers over the bytes of an image, and what it leaves there, worked out by the plain unit over the plain disk."""
from disk import Disk
from journal import Journal, Refused, kept_in, read_block
from onboard import MOST_PENDING, Unit
from onboard_rows import record_text
from program import WORDS, event_of, inputs_of, released


def listed(data):
    """Status and text of a listing. It has the longest unbroken run of valid blocks up to the greatest number."""
    disk = Disk.of(data)
    try:
        journal = Journal(disk)
    except Refused as refused:
        return 1, {"2 NotFormatted": "refused 31 NotFormatted\n", "3 Damaged": "refused 32 Damaged\n"}[str(refused)]
    text = ""
    for number in range(journal.first, journal.newest + 1):
        block = read_block(journal.load(disk, number))
        if block is None:
            return 1, text + "refused 32 Damaged\n"
        text += "".join(record_text(block, record).removeprefix("| ").rstrip() + "\n" for record in block["records"])
    return 0, text


def kept_on(disk):
    """What the newest block keeps; None where there is no block."""
    found = Journal(Disk.of(disk.data())).found
    return found and kept_in(found)


def life_texts(disk, scenario):
    """Yields each text that a life on a disk prints; the disk is changed before each."""
    def released_now():
        return "".join(released((number, None, output, None, None)) + "\n" for number, output in unit.flush())

    try:
        unit = Unit(disk, WORDS[scenario.get("cold", 0)])
        for asked in inputs_of(scenario):
            if asked is None or len(unit.pending) == MOST_PENDING:
                yield released_now()
            if asked is not None:
                unit.accept(*event_of(*asked)[1:3])
        yield released_now()
    except Refused as refused:
        yield f"stopped {refused}\n"


def answer_of(text):
    """Status and text of a life."""
    return 1 if text.splitlines()[-1:] and text.splitlines()[-1].startswith("stopped") else 0, text


def lived(disk, scenario):
    """Status and text of a life on a disk, which is changed."""
    return answer_of("".join(life_texts(disk, scenario)))
