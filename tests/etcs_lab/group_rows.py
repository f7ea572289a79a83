"""What `etcs_lab why` is to say about the balise groups that an event closes, worked out by hand (SUBSET-026, 3.4, 3.4.4, 3.16.2 and 4.8): lives,
the event that is asked for, and the groups that its line says. Where there is none it has no line that begins with `group`.

Places are centimetres. The front is 500 cm ahead of where the train is thought to be, and 5 % of the way more. A group of one balise is whole
at once; of one of two the second balise makes it whole, or a telegram of another group ends it, or more than 1,300 cm without a telegram of it.
"""
from limit_tracks import FAST, LEVEL, authority, heard

SR = ("enter-identity A 1", "choose-level 1", "enter-train-data 20000 160000 70 0 15", "start")
LIMIT = "65: NID_TSR 7, D_TSR 100, L_TSR 50, Q_FRONT 1, V_TSR 24"
LIMIT_NAME, REVOKED_NAME = "packet 65 Temporary Speed Restriction", "packet 66 Temporary Speed Restriction Revocation"


def announcing(metres, reaction, accuracy=5):
    """Group 3, nominal, so far ahead."""
    return (f"5: D_LINK {metres}, Q_NEWCOUNTRY 0, NID_BG 3, Q_LINKORIENTATION 1, Q_LINKREACTION {reaction}, Q_LOCACC {accuracy}, N_ITER 0")


def full(metres, reaction):
    """In Full Supervision after event 5, with group 3 announced; reaction 0 is a trip, 1 the service brake, 2 none."""
    return (heard(announcing(metres, reaction), authority(3_000), LEVEL, FAST), *SR)


ACCEPTED_ANNOUNCED = (*full(10, 0), "move 1000 20000",
                      heard(LIMIT, "66: Q_DIR 0, NID_TSR 9", "68:", group=3))
TWO_BALISES = "3, N_TOTAL 1"
# Name, life, the event that is asked for, its groups.
GROUPS_BY_HAND = (
    # The announcement says nominal, and one balise says no direction: so packet 66, which is valid in reverse, isn't used.
    ("accepted as announced", ACCEPTED_ANNOUNCED, 7,
     f"\n  group 1 3 in mode FS, direction nominal: accepted as announced, announcement 0 (3.4.4)\n    {LIMIT_NAME}\n    {REVOKED_NAME} (other direction)\n    "
     "packet 68 Track Condition (not known)"),
    ("passed in reverse", (heard(group="4, N_PIG 1, N_TOTAL 1"),
                           heard(LIMIT.replace("NID_TSR 7", "Q_DIR 1, NID_TSR 7"), "66: Q_DIR 0, NID_TSR 9", group="4, N_TOTAL 1")), 2,
     f"\n  group 1 4 in mode SB, direction reverse: accepted, linking not being in use (3.4.4)\n    {LIMIT_NAME} (other direction)\n    {REVOKED_NAME}"),
    ("the first of two balises", (heard(group="4, N_PIG 1, N_TOTAL 1"),), 1, ""),
    ("passed nominal", (heard(group="4, N_TOTAL 1"), heard("66: Q_DIR 1, NID_TSR 9", group="4, N_PIG 1, N_TOTAL 1")), 2,
     f"\n  group 1 4 in mode SB, direction nominal: accepted, linking not being in use (3.4.4)\n    {REVOKED_NAME}"),
    # Shunting uses packets 3, 65 and 66 alone; a packet that is valid in one direction isn't used where the direction isn't known.
    ("not linked, in Shunting", (*SR[:2], "choose-shunting", heard(authority(3_000), LIMIT, "66: Q_DIR 1, NID_TSR 9", group="5, Q_LINK 0")), 4,
     "\n  group 1 5 in mode SH, direction not known: accepted, not being linked (3.4.4)\n    packet 12 Level 1 Movement Authority (not in this mode)\n    "
     f"{LIMIT_NAME}\n    {REVOKED_NAME} (other direction)"),
    # A trip that the driver has acknowledged at standstill: Post Trip uses packets 3, 41, 65 and 66 alone.
    ("in Post Trip", (*full(10, 2), heard(authority(3_000, main=0), group="7, Q_LINK 0"), "acknowledge trip", heard(FAST, LIMIT, group="5, Q_LINK 0")), 8,
     "\n  group 1 5 in mode PT, direction not known: accepted, not being linked (3.4.4)\n    packet 27 International Static Speed Profile (not in this "
     f"mode)\n    {LIMIT_NAME}"),
    ("a packet without a name", (heard("100:", group="5, Q_LINK 0"),), 1,
     "\n  group 1 5 in mode SB, direction not known: accepted, not being linked (3.4.4)\n    packet 100 without a name (not known)"),
    ("not announced", (*full(10, 0), heard(LIMIT, group=8)), 6,
     f"\n  group 1 8 in mode FS, direction not known: not used, since it is not announced while others are (3.4.4)\n    {LIMIT_NAME}"),
    # Announced at 100,000, to 500: it may lie from 99,500 on, and the maximum safe front is at 500.
    ("too early", (*full(1_000, 1), heard(LIMIT, group=3)), 6,
     "\n  group 1 3 in mode FS, direction not known: not used, since it came before the place where it is announced, announcement 0, asks for the "
     f"service brake (3.16.2)\n    {LIMIT_NAME}"),
    # Announced at 2,000, to 500: at 949 the maximum safe front is at 949 + 500 + 47, at 953 at 953 + 500 + 47.
    ("just too early", (*full(20, 2), "move 949 20000", heard(group=3)), 7,
     "\n  group 1 3 in mode FS, direction not known: not used, since it came before the place where it is announced, announcement 0 (3.16.2)"),
    ("just not too early", (*full(20, 2), "move 953 20000", heard(group=3)), 7,
     "\n  group 1 3 in mode FS, direction nominal: accepted as announced, announcement 0 (3.4.4)"),
    # The wrong direction is a trip, whatever its own reaction is, here none.
    ("wrong way", (*full(10, 2), "move 1000 20000", heard(group="3, N_PIG 1, N_TOTAL 1"), heard(LIMIT, group=TWO_BALISES)), 8,
     "\n  group 1 3 in mode FS, direction reverse: not used, since it was passed in the wrong direction, announcement 0, asks for a trip (3.16.2.3)\n    "
     f"{LIMIT_NAME}"),
    ("not left yet", (heard(LIMIT, group="6, N_TOTAL 1, Q_LINK 0"), "move 1300 5000", "move 1 5000"), 2, ""),
    ("left with a balise missing, not linked", (heard(LIMIT, group="6, N_TOTAL 1, Q_LINK 0"), "move 1300 5000", "move 1 5000"), 3,
     "\n  group 1 6 in mode SB, direction not known: not used, since a balise of it was not read, asks for the service brake (3.16.2)"),
    ("left with a balise missing, not announced", (heard(LIMIT, group="6, N_TOTAL 1"), "move 1301 5000"), 2,
     "\n  group 1 6 in mode SB, direction not known: not used, since a balise of it was not read (3.16.2)"),
    ("counters that differ", (heard(group="6, N_TOTAL 1, M_MCOUNT 1"), heard(group="6, N_PIG 1, N_TOTAL 1, M_MCOUNT 2")), 2,
     "\n  group 1 6 in mode SB, direction not known: not used, since its message counters do not fit (3.16.2)"),
    ("telegrams that differ", (heard(group="6, N_TOTAL 1"), heard(group="6, N_PIG 1, N_TOTAL 2")), 2,
     "\n  group 1 6 in mode SB, direction not known: not used, since its telegrams do not agree (3.16.2)"),
    # The broken group takes the one announcement with it, so that linking isn't in use where the second group is judged.
    ("two groups, the first broken", (*full(10, 0), "move 1000 20000", heard(group=TWO_BALISES), heard(LIMIT, group=8)), 8,
     "\n  group 1 3 in mode FS, direction not known: not used, since a balise of it was not read, announcement 0, asks for a trip (3.16.2)\n  group 1 8 "
     f"in mode FS, direction not known: accepted, linking not being in use (3.4.4)\n    {LIMIT_NAME}"),
    # Balise 1 repeats the next one, which wasn't read; its packet 5 announces group 3, so that the second group isn't announced.
    ("two groups, the first announces links", (heard(announcing(10, 2), group="10, N_TOTAL 1, M_DUP 1"), heard(group=8)), 2,
     "\n  group 1 10 in mode SB, direction not known: accepted, linking not being in use (3.4.4)\n    packet 5 Linking\n  group 1 8 in mode SB, direction "
     "not known: not used, since it is not announced while others are (3.4.4)"),
)
# .. as JSON, of the first row.
GROUPS_AS_JSON = [{
    "country": 1, "group": 3, "mode": "FS", "direction": "nominal", "outcome": "announced", "announcement": 0, "reaction": None,
    "section": "3.4.4", "packets": [
        {"packet": 65, "name": "Temporary Speed Restriction", "why": None},
        {"packet": 66, "name": "Temporary Speed Restriction Revocation", "why": "other_direction"},
        {"packet": 68, "name": "Track Condition", "why": "not_known"},
    ],
}]
