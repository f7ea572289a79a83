"""Lines of rows that stand for many: each number of a range, combinations of words, and groups of which a digest is wanted.

    for 0 511: flip 0 * 01; ..    the rest of the line for each number of this range, which stands in the place of `*`
    try 4096 old,new old,ff / new,@7: cut 3; open moved; settle *; cut 1; open moved; settle %
                                  the rest of the line for each combination that has a word of each list, where there are at most so
                                  many, else for so many of them; the words of the lists before `/` stand in the place of `*`, the
                                  others in that of `%`
    group NAME                    of the lines from here on only a digest is wanted, up to
    end -> ..                     .. which says how many they are, how often the answers change from one line to the next, and the
                                  digest of the answers, each that is the same as the line's before it left out

In the other files of rows:

    3 x move 10000 -> 40000       the line, three times
    mode FS {trip, level_0}: TR   the line once for each of these words
    lines damaged by *            a name for the lines after `|` ..
    | patch *: done
    | open: 3 Damaged, calls 7
    > damaged by 2 {28:09, 5:01}  .. which this line stands for, with these words in place of `*`, once for each of those in braces;
                                  `*1` is the first of these words
"""
import re
from math import prod

MASK = (1 << 64) - 1
STRIDE = 2_654_435_761  # an odd prime, by which numbers of combinations lie apart


def digest_of(data, digest=0xCBF29CE484222325):
    """FNV-1a of 64 bits."""
    for byte in data:
        digest = ((digest ^ byte) * 0x100000001B3) & MASK
    return digest


def ranged(each):
    """The lines of `for`."""
    ends, _, line = each.partition(":")
    first, last = map(int, ends.split())
    return [line.replace("*", str(number)) for number in range(first, last + 1)]


def combined(each):
    """The lines of `try`: the number that is tried at most, lists for one sign and for the other, and the line."""
    head, _, line = each.partition(":")
    most, _, lists = head.partition(" ")
    first, _, second = ([words.split(",") for words in part.split()] for part in lists.partition("/"))
    count = prod(map(len, first + second))
    tried = min(int(most), count)
    for k in range(tried):
        rest, words = (k * STRIDE & MASK) % count if tried < count else k, []
        for choice in first + second:
            rest, place = divmod(rest, len(choice))
            words.append(" " + choice[place])
        yield line.replace("*", "".join(words[:len(first)])).replace("%", "".join(words[len(first):]))


def repeated(line):
    """The lines of `N x LINE`; any other line stands for itself."""
    times = re.match(r"(\d+) x ", line)
    return [line[times.end():]] * int(times[1]) if times else [line]


def braced(line):
    """The line once with each of the words in its braces. Braces with quotes are a question's own (JSON)."""
    words = re.search(r'\{([^{}"]+, [^{}"]+)\}', line)
    return [line[:words.start()] + word + line[words.end():] for word in words[1].split(", ")] if words else [line]


def written_out(lines):
    """The lines with their numbers, each `>` line as the lines that it stands for."""
    named = {}
    for number, line in enumerate(lines, 1):
        sign, _, rest = line.partition(" ")
        if sign == "lines":
            name, body = rest.removesuffix(" *"), []
            named[name] = body
        elif sign == "|":
            body.append(rest)
        elif sign == ">":
            name = max((name for name in named if f"{rest} ".startswith(f"{name} ")), key=len)
            for words in braced(rest.removeprefix(name).strip()):
                each = words.split()
                yield from ((number, re.sub(r"\*(\d*)", lambda at: each[int(at[1]) - 1] if at[1] else words, one)) for one in named[name])
        else:
            yield number, line


class Group:
    """Lines of which a digest is wanted."""

    def __init__(self):
        self.lines, self.answers = 0, []

    def take(self, answers):
        self.lines += 1
        if not self.answers or self.answers[-1] != answers:
            self.answers.append(answers)

    def text(self):
        digest = digest_of("".join(answers + "\n" for answers in self.answers).encode())
        return f"{self.lines} lines, {len(self.answers)} answers, digest {digest:016x}"
