"""What `etcs_lab why` is to say about the demands that a guard next to the unit makes by the telegram of an event, worked out by hand by the table of
crates/track_guard/README.md (SUBSET-026, 3.16.2, 3.17 and 4.6.3): lives, the event that is asked for, and the lines of its demands. The train
stands, so no group is left. Telegrams are written bit by bit.
"""
ENTERED = ("enter-identity A 1", "choose-level 1")
SR = (*ENTERED, "enter-train-data 20000 160000 70 0 15", "start")
SH = (*ENTERED, "choose-shunting")
NOMINAL, BOTH, REVERSE = 1, 2, 0


def packet(number, q_dir, fields):
    """NID_PACKET, Q_DIR, L_PACKET and the fields."""
    return f"{number:08b}{q_dir:02b}{23 + len(fields):013b}{fields}"


def sent(*packets, place=0, last=0, version=16, link=1):
    """Group 1 7: Q_UPDOWN 1, M_VERSION, Q_MEDIA 0, N_PIG, N_TOTAL, M_DUP 0, M_MCOUNT 255, NID_C 1, NID_BG 7, Q_LINK; packets; the end mark."""
    bits = f"1{version:07b}0{place:03b}{last:03b}00{255:08b}{1:010b}{7:014b}{link}{''.join(packets)}{'1' * 8}"
    return "hear " + int(bits + "0" * (-len(bits) % 8), 2).to_bytes((len(bits) + 7) // 8, "big").hex()


def stop(q_dir, is_free=0):
    """Packet 137 with Q_SRSTOP."""
    return packet(137, q_dir, str(is_free))


def danger(q_dir):
    """Packet 132 with Q_ASPECT 0."""
    return packet(132, q_dir, "0")


STOP = "trip for packet 137 Stop if in Staff Responsible (4.6.3, sure)"
DANGER = "trip for packet 132 Danger for Shunting information (4.6.3, sure)"
AXLES = "not obeyed: packet 51 Axle load Speed Profile (3.11.4, fairly sure)"
ROUTES = "not obeyed: packet 70 Route Suitability Data (3.12.2, fairly sure)"
OUTSIDE, NOMINALLY, REVERSELY = "\n  outside the unit: ", *(f"\n  outside the unit, if passed in the {way} direction: " for way in ("nominal", "reverse"))
INVALID = packet(65, BOTH, "01" + "1" * 8 + "0" * 15 + "0" * 14 + "1" + f"{121:07b}")  # V_TSR 121 is spare
# Name, life, the event that is asked for, its demands.
DEMANDS_BY_HAND = (
    # Event 5 is the first one after the start. A group of one balise that isn't announced shows no direction.
    ("stop in SR", (*SR, sent(stop(BOTH))), 5, OUTSIDE + STOP),
    ("Q_SRSTOP 1", (*SR, sent(stop(BOTH, 1))), 5, ""),
    ("stop in Stand By", (sent(stop(BOTH)),), 1, ""),
    ("stop in Shunting", (*SH, sent(stop(BOTH))), 4, ""),
    ("danger in Shunting", (*SH, sent(danger(BOTH))), 4, OUTSIDE + DANGER),
    ("the mode is that before the event", (*SH[:2], sent(danger(BOTH)), "choose-shunting"), 3, ""),
    ("no telegram", (*SR, sent(stop(BOTH)), "move 0 0"), 6, ""),
    ("overridden", (*SR, "override", sent(stop(BOTH), packet(51, BOTH, "000"))), 6, OUTSIDE + AXLES),
    # Where the direction isn't known: first what is demanded anyway, then of nominal, then of reverse.
    ("a direction that isn't known", (*SR, sent(packet(51, REVERSE, "000"), stop(NOMINAL), packet(70, BOTH, "000"))), 5,
     OUTSIDE + ROUTES + NOMINALLY + STOP + REVERSELY + AXLES),
    # Two balises: the first one shows no direction, the second one closes the group and shows it.
    ("the first of two balises", (*SR, sent(stop(NOMINAL), last=1)), 5, NOMINALLY + STOP),
    ("passed nominal", (*SR, sent(last=1), sent(stop(NOMINAL), packet(51, REVERSE, "000"), place=1, last=1)), 6, OUTSIDE + STOP),
    ("passed in reverse", (*SR, sent(place=1, last=1), sent(stop(NOMINAL), packet(51, REVERSE, "000"), last=1)), 6, OUTSIDE + AXLES),
    ("several, before infill", (*SR, sent(stop(BOTH), packet(70, BOTH, "000"), packet(136, BOTH, "0" * 15), packet(51, BOTH, "000"))), 5,
     OUTSIDE + STOP + OUTSIDE + ROUTES),
    ("only reported", (*SR, sent(packet(49, BOTH, "00000"), packet(16, BOTH, "01" + "000000000110010"), packet(46, BOTH, "01100000"),
                                 packet(71, BOTH, "01" + "000000000110010" + "000000001100100" + "0"),
                                 packet(12, BOTH, "01" + "0011000" + "0010100" + "1111111111" + "00000" + "000000111110100" + "0000"))), 5,
     OUTSIDE + "not obeyed: packet 49 List of balises for SH Area (4.6.3, fairly sure)"
     + OUTSIDE + "not obeyed: packet 16 Repositioning Information (3.8.5, fairly sure)"
     + OUTSIDE + "not obeyed: packet 46 Conditional Level Transition Order (5.10, fairly sure)"
     + OUTSIDE + "not obeyed: packet 71 Adhesion Factor (3.18.4, fairly sure)"
     + OUTSIDE + "not obeyed: packet 12 Level 1 Movement Authority (4.6.3, fairly sure)"),
    ("stop Shunting in Stand By", (sent(packet(135, BOTH, "")),), 1,
     OUTSIDE + "not obeyed: packet 135 Stop Shunting on desk opening (5.6, to be looked up)"),
    # Telegrams that the unit refuses, and what their packets demand where M_VERSION is 16 to 31.
    ("M_VERSION 32", (*SR, sent(stop(BOTH), version=32)), 5, OUTSIDE + "trip for M_VERSION from 32 on (3.17, to be looked up)"),
    ("M_VERSION 17", (*SR, sent(stop(BOTH), version=17)), 5, OUTSIDE + "not readable: M_VERSION 17 to 31 (3.17, fairly sure)" + OUTSIDE + STOP),
    ("M_VERSION 15", (*SR, sent(version=15)), 5, OUTSIDE + "not readable: M_VERSION below 16 (3.17, to be looked up)"),
    ("refused, not linked", (*SR, sent(INVALID, link=0)), 5, OUTSIDE + "service brake for refused telegram, not linked (3.16.2, to be looked up)"),
    ("refused, not linked, in Stand By", (sent(INVALID, link=0),), 1, OUTSIDE + "not readable: refused telegram, not linked (3.16.2, to be looked up)"),
    ("refused, linked", (*SR, sent(INVALID)), 5, OUTSIDE + "not readable: refused telegram (3.16.2, to be looked up)"),
    ("refused, in one direction", (*SR, sent(INVALID, stop(REVERSE))), 5,
     OUTSIDE + "not readable: refused telegram (3.16.2, to be looked up)" + REVERSELY + STOP),
)
# .. of "a direction that isn't known", and of "refused, not linked" as JSON.
DEMANDS_AS_JSON = {
    "a direction that isn't known": [
        {"demanded": "not_obeyed", "only_in_direction": None, "mode": "SR", "finding": "route_suitability", "packet": 70, "section": "3.12.2",
         "sureness": "fairly_sure"},
        {"demanded": "trip", "only_in_direction": "nominal", "mode": "SR", "finding": "stop_in_staff_responsible", "packet": 137, "section": "4.6.3",
         "sureness": "sure"},
        {"demanded": "not_obeyed", "only_in_direction": "reverse", "mode": "SR", "finding": "axle_load_speeds", "packet": 51, "section": "3.11.4",
         "sureness": "fairly_sure"}],
    "refused, not linked": [
        {"demanded": "service_brake", "only_in_direction": None, "mode": "SR", "finding": "refused_unlinked", "packet": None, "section": "3.16.2",
         "sureness": "to_be_looked_up"}],
}
