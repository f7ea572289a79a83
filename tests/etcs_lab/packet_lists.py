"""Telegrams whose packets are written by hand, after SUBSET-026, 7.4.2 and 8.4.2: each way in which `etcs_lab packets` reports a packet, and
each in which a list ends."""
from track_packets import data_of

HEADER, END = "1 0010000 0 000 000 00 11111111 0000000001 00000000000010 1", "11111111"
STOP = "10001001 10 0000000011000 0"
"""137, both directions, 24 bits: Q_SRSTOP 0."""
REVOCATION = "01000010 01 0000000011111 00000001"
"""66, nominal, 31 bits: NID_TSR 1."""
INFILL = "10001000 10 0000000100110 0 00000000000011"
"""136, both directions, 38 bits: Q_NEWCOUNTRY 0, NID_BG 3."""
NAMELESS = "01100011 00 0000000010111"
"""99, reverse, 23 bits."""
LISTS = {
    "none": END,
    "one that is skipped, and one that isn't": STOP + REVOCATION + END,
    "after infill": REVOCATION + INFILL + REVOCATION + STOP + END,
    "without a name": NAMELESS + STOP + END,
    "bits after the last field": "00101100 10 0000000101010 000000001 1010101010" + END,  # 44, 42 bits: NID_XUSER 1, and 10 more
    "a field that is cut off": "00101100 10 0000000011001 11" + END,  # 44, 25 bits
    "a counter that announces too many": "00110001 10 0000000011100 00011" + END,  # 49, 28 bits: N_ITER 3, and none
    "bits that are left": "10000111 10 0000000011000 1" + END,  # 135, 24 bits, where its head has 23
    "a spare Q_DIR": STOP + "01000010 11 0000000011111 00000001" + END,  # 66
    "another L_PACKET": "01000010 10 0000000100000 00000001 0" + END,  # 66, 32 bits
    "a number without a speed": "01000001 10 0000001000111 01 00000001 000000000000000 000000000000001 1 1111111" + END,  # 65: V_TSR 127
    "the bits end within the packet": "01000010 10 0000000010111",  # 66, 23 bits, and 7 more are no end mark
    "a head that is cut off": "10001001 10",
    "an L_PACKET below 23": STOP + "10001001 10 0000000000101 0" + END,
    "more than are listed": NAMELESS * 34,
}


def telegrams():
    """The bytes of each."""
    for name, packets in LISTS.items():
        yield name, data_of((HEADER + packets).replace(" ", ""))
