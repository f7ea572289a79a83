"""Rows of announced balise groups, of balises, and of a telegram with a fault, in words and in numbers. Places are
centimetres.

    links new                       none is announced
    links announce 1 100000 10 trip NID_BG, place, Q_LOCACC and Q_LINKREACTION of each group of a list of links, which
                                    may have none; all are to be passed in their nominal direction
    links read 1 linked unknown 93809 5191
                                    a group is read: NID_BG, Q_LINK, its direction of passing, where the front is
                                    thought to be, and how far that may be wrong
    links break 2 linked            a group breaks
    links miss 101001               the minimum safe front is here
    links in use                    whether an announced group is left
    links keep                      a copy is laid aside
    links turn                      what was laid aside goes on, and what went on is laid aside

    balises new                     a life begins
    balises read N_PIG=1 packets=200,136
                                    a telegram is read: its variables that differ from `FIRST`, and the numbers of its
                                    packets, which have no more than a head
    balises move 1301               the train moves

    telegram 90007F80               what is left of one

The answer on a group that is read or broken is what becomes of it, and what is asked for: a trip, the service brake, both or
nothing. The answer on balises is the group that this ends (`left`), and the telegram's own where it is whole now (`own`),
each by its message: NID_BG, the direction of passing, its place by the sums of the movements and of the path, whether
balise 1 was missed, and the numbers of its packets; or that it is broken, with the cause.
"""
from asking import packed, signed
from test_parts_track import REFUSED, YES, bits, called, whole

LINKED = {"linked": 1, "unlinked": 0}
DIRECTIONS = ["reverse", "nominal", "unknown"]
REACTIONS = {"trip": 0, "service": 1, "none": 2}
EFFECTS = {(0, 0): "nothing", (1, 0): "trip", (0, 1): "service", (1, 1): "trip and service"}
LINKS = {"new": (1, 0), "miss": (5, 1), "in use": (6, 0), "keep": (7, 0), "turn": (8, 0)}
CAUSES = {1: "missing", 2: "counter", 3: "mixed"}
# The bits of each variable of a telegram's header, and its number where a row says no other: Q_UPDOWN, M_VERSION and
# Q_MEDIA of each balise, and balise 1 of group 5 of country 1, which has two balises.
FIRST = {
    "Q_UPDOWN": (1, 1), "M_VERSION": (7, 16), "Q_MEDIA": (1, 0), "N_PIG": (3, 0), "N_TOTAL": (3, 1), "M_DUP": (2, 0),
    "M_MCOUNT": (8, 255), "NID_C": (10, 1), "NID_BG": (14, 5), "Q_LINK": (1, 1),
}
# Of a packet's head: Q_DIR of both directions, and L_PACKET, which counts the head's own bits.
HEAD = [(2, 2), (13, 23)]
END_OF_PACKETS = 256


def announced(words):
    for number, place, accuracy, reaction in zip(*[iter(words)] * 4, strict=True):
        yield [bits(14, number), whole(place), bits(6, accuracy), REACTIONS[reaction]]


def links(words):
    name, *others = words
    if name == "announce":
        groups = list(announced(others))
        if len(groups) > 32:
            raise ValueError("more than 32 groups")
        return [2, len(groups), *(number for group in groups for number in group)]
    if name == "read":
        number, linked, direction, front, uncertainty = others
        return [3, bits(14, number), LINKED[linked], DIRECTIONS.index(direction), whole(front), whole(uncertainty)]
    if name == "break":
        return [4, bits(14, others[0]), LINKED[others[1]]]
    return called(LINKS, words)


def links_answer(words, reply):
    asked, verdict, number, trip, service = reply.take(5)
    if not asked:
        return REFUSED
    if words[0] == "in":
        return YES[verdict]
    if words[0] not in ("read", "break", "miss"):
        return "done"
    effect = EFFECTS[trip, service]
    return f"{verdict_text(verdict, number)}, {effect}" if words[0] == "read" else effect


def verdict_text(verdict, number):
    return {1: "accepted", 2: f"accepted as {number}", 3: "ignored", 4: f"refused as {number}"}[verdict]


def telegram_of(words):
    """The bytes of a telegram (SUBSET-026, 8.4.2)."""
    given = dict(word.split("=") for word in words)
    numbers = [bits(8, word) for word in given.pop("packets", "").replace(",", " ").split()]
    fields = [(width, given.pop(name, number)) for name, (width, number) in FIRST.items()]
    if given:
        raise ValueError(f"{' '.join(words)}: no telegram")
    for number in numbers:
        fields += [(8, number), *HEAD]
    fields.append((8, 255))
    text = "".join(f"{bits(width, number):0{width}b}" for width, number in fields)
    return int(text.ljust(8 * 104, "0"), 2).to_bytes(104, "big")


def balises(words):
    name, *others = words
    if name == "read":
        return [2, *packed(telegram_of(others))]
    return called({"new": (1, 0), "move": (3, 1)}, words)


def balises_answer(words, reply):
    if reply.take() == 0:
        return REFUSED
    if words[0] == "new":
        return "done"
    closed = [f"{name} {text}" for name in ("left", "own") if (text := take_closed(reply))]
    return ", ".join(closed) or "nothing"


def take_closed(reply):
    kind = reply.take()
    if kind == 2:
        number, cause = reply.take(2)
        return f"{number} broken: {CAUSES[cause]}"
    return take_message(reply) if kind == 1 else ""


def take_message(reply):
    number, direction, moved, path, missed = reply.take(5)
    text = f"{number} {DIRECTIONS[direction]} {signed(moved)} {path}" + (" missed" if missed else "")
    packets = []
    while (packet := reply.take()) != END_OF_PACKETS:
        packets.append(str(packet))
    return " packets ".join([text, *([" ".join(packets)] if packets else [])])


def telegram(words):
    data = bytes.fromhex(words[0])
    return [len(data), *packed(data)]


def telegram_answer(_words, reply):
    asked, has_fault, is_empty = reply.take(3)
    if not asked:
        return REFUSED
    return f"{['whole', 'a fault'][has_fault]}, {['with packets', 'without packets'][is_empty]}"
