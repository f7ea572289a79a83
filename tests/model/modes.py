"""The modes: their transitions, the items that each keeps, and the packets that it uses (SUBSET-026, 4.6, 4.8 and 4.10; the
rows and statuses are this project's)."""

# The first row whose source is the old mode and whose conditions all hold is taken.
ROWS = """
 1  FS OS SR SH UN SB TR PT  SF  overrun
 2  FS OS SR SH UN PT        SB  desk_closed
 3  FS                       TR  trip
 4  OS                       TR  trip
 5  SR                       TR  trip
 6  SR                       TR  beyond_staff_distance
 7  UN                       OS  level_1 full on_sight_area
 8  UN                       FS  level_1 full
 9  UN                       TR  level_1
10  TR                       PT  trip_acknowledged
11  PT                       SR  override_accepted
12  PT                       SH  shunting_chosen
13  PT                       SR  started level_1
14  PT                       UN  started level_0
15  SB                       SH  shunting_chosen
16  SB                       FS  started level_1 full
17  SB                       SR  started level_1
18  SB                       UN  started level_0
19  SH                       SB  shunting_left
20  FS                       SH  shunting_chosen
21  OS                       SH  shunting_chosen
22  SR                       SH  shunting_chosen
23  UN                       SH  shunting_chosen
24  FS                       SR  override_accepted
25  OS                       SR  override_accepted
26  FS                       UN  level_0
27  OS                       UN  level_0
28  SR                       UN  level_0
29  FS                       SH  shunting_area
30  OS                       SH  shunting_area
31  FS                       OS  on_sight_area
32  SR                       OS  full on_sight_area
33  SR                       FS  full
34  OS                       FS  full not_on_sight_area
"""

# K kept, I invalid, D deleted. P is a power-up, N one of which it is known that the train has not moved.
STATUSES = """
                       P  N  SB SH SR UN FS OS TR PT SF
identity               I  I  K  K  K  K  K  K  K  K  K
running-number         I  I  K  K  K  K  K  K  K  K  K
train-data             I  I  I  I  K  K  K  K  K  K  K
level                  I  K  K  K  K  K  K  K  K  K  K
position               I  K  K  K  K  K  K  K  K  K  K
linking                D  D  D  D  D  D  K  K  D  D  D
authority              D  D  D  D  D  D  K  K  D  D  D
profiles               D  D  D  D  D  D  K  K  D  D  D
areas                  D  D  D  D  D  D  K  K  D  D  D
restrictions           D  D  K  K  K  K  K  K  K  K  K
level-announcement     D  D  D  K  K  K  K  K  D  K  K
acknowledgements       D  D  D  K  K  K  K  K  D  K  D
override               D  D  D  D  K  D  D  D  D  D  D
national-values        K  K  K  K  K  K  K  K  K  K  K
announced-values       D  D  K  K  K  K  K  K  K  K  K
outstanding-trip       K  K  K  K  K  K  K  K  K  K  K
counts                 K  K  K  K  K  K  K  K  K  K  K
"""

EVERY_PACKET = (3, 5, 12, 21, 27, 41, 65, 66, 80)
USED = {"SH": (3, 65, 66), "TR": (3, 65, 66), "PT": (3, 41, 65, 66), "SF": ()}


def table_rows():
    for line in ROWS.strip().splitlines():
        number, *words = line.split()
        modes = [word for word in words if word.isupper()]
        yield int(number), modes[:-1], modes[-1], words[len(modes):]


def status_rows():
    head, *lines = STATUSES.strip("\n").splitlines()
    for line in lines:
        item, *fates = line.split()
        yield item, dict(zip(head.split(), fates))


TABLE = tuple(table_rows())
FATES = dict(status_rows())


def row_of(mode, conditions):
    """The number of the first row that holds and the mode that it leads to; None where none holds. The conditions that hold are
    named."""
    for number, sources, target, wanted in TABLE:
        if mode in sources and all((name.removeprefix("not_") in conditions) != name.startswith("not_") for name in wanted):
            return number, target
    return None


def fate(item, column):
    return FATES[item][column]


def used_in(mode):
    return USED.get(mode, EVERY_PACKET)
