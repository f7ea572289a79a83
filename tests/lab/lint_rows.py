#!/usr/bin/env python3
"""The checks of `./lab lint`: each finds a planted fault on a small track, with numbers that were worked out by hand, and nothing on the
same track mended; what else the word prints, and its status; and what it finds in the suites and examples.

    tests/lab/lint_rows.py ETCS ETCS_LAB

The formulas are those of docs/explain/safety.md. The train of the rows is 200 m long and brakes with 70 cm/s2 at once: 2,592 * 70 = 181,440.
"""
import json
import os
import re
import shutil
import subprocess
import sys
import tempfile
from pathlib import Path

TOP = Path(__file__).resolve().parents[2]
sys.path.insert(0, str(TOP / "python"))
from gaknifur.cases import scenario_faults  # noqa: E402
from gaknifur.track import lint, track_checks  # noqa: E402

LEAST_ROWS, LEAST_ITEMS, LEAST_CASES = 77, 28, 247
HEAD = """test_case: NAME
feature: Lint
sections: [3.13]
rule: what is weak is found
starting_conditions: as in the steps
include: common.yaml
expected: [{note: it was played, at: end, expect: {event: {least: 1}}}]
lives:
"""
PROFILE = "21: D_GRADIENT 0, Q_GDIR 1, G_A 0; 27: D_STATIC 0, V_STATIC 24, Q_FRONT 1"
VALUES = ("3: D_VALIDNV 32767, V_NVSHUNT 6, V_NVSTFF 8, V_NVONSIGHT 6, V_NVUNFIT 20, V_NVREL 8, D_NVROLL 3, V_NVALLOWOVTRP 0, V_NVSUPOVTRP 6, "
          "D_NVOVTRP 200, T_NVOVTRP 60, D_NVSTFF 32767")
RESTRICTION = "007F802001506023A0E04B0064427F80"
STOP = "007F80200162600C3FC0"
INVALID = "90007F802001105023A0E01900193CFF80"  # Q_LINK 0; packet 65 with V_TSR 121
INSTALLED = "90007F80200140E0583FFFC0184062820001400300C83C01907FBFFF90A00F83FF80"
COUNTRY_FIRST = "90007F802003C0E05D3FFFC400061018A080004000C0320F006423DFFFE41808E83800003E905FE0"  # NID_C 64, then N_ITER 0


def full(more, end=300):
    """Full Supervision at a standstill by an authority of group 1/2, with more variables of packet 12 and more packets."""
    return f'{{telegram: "NID_BG 2; 12: V_MAIN 24, L_ENDSECTION {end}{more}; {PROFILE}"}}, use: level_1, start'


def link(group, at, reaction=1, accuracy=5):
    return f"D_LINK {at}, NID_BG {group}, Q_LINKORIENTATION 1, Q_LINKREACTION {reaction}, Q_LOCACC {accuracy}"


def eight(accuracy):
    """Eight balises 3 m apart at 100 m, announced."""
    balises = ", ".join(f'"NID_BG 3, N_PIG {number}, N_TOTAL 7"' for number in range(8))
    return (f"{{groups: [{{at: 100 m, spacing: 3 m, balises: [{balises}]}}], "
            f"steps: [{full(f'; 5: {link(3, 100, accuracy=accuracy)}', 1500)}, {{drive: 200 m at 30 km/h}}]}}")


def areas(first_length, second):
    return f"{{steps: [{full(f'; 80: D_MAMODE 100, M_MAMODE 0, V_MAMODE 6, L_MAMODE {first_length}, L_ACKMAMODE 0, D_MAMODE {second}, M_MAMODE 0, V_MAMODE 6, L_MAMODE 50, L_ACKMAMODE 0', 1500)}]}}"


def loa(lasts, more):
    """Full Supervision by an authority of 500 m with V_LOA 100 km/h, and more static speeds."""
    return full("", 500).replace("V_MAIN 24", f"V_MAIN 24, V_LOA 20, T_LOA {lasts}").replace("V_STATIC 24, Q_FRONT 1", f"V_STATIC 24, Q_FRONT 1{more}")


def skipped(number, packet, text):
    """The row of a skipped packet that is read in Staff Responsible, with what a train of issue 2.3.0 does; None if it does nothing."""
    where = "/steps/4/telegram"
    found = [(45, where, ["group 1/7", f"packet {number} ", "read in SR", text])] if text else []
    name = re.sub("[^a-z0-9]+", "_", f"skipped {packet}".lower())
    return name, found, f'{{steps: [use: staff, {{telegram: "NID_BG 7; {packet}"}}]}}', f"; {packet}", ""


def drive(train):
    return f"{{steps: [{full('')}], drive: {{train: {{acceleration: 0.5 m/s2, {train}}}, driver: {{heeds: limit}}, time_step: 1 s, lasts: 5 s}}}}"


# Each row: its name; the items that are found, each with where and what has to be said; the life with the fault; what stands there once it
# is mended, in place of what.
ROWS = [
    # Without its second balise the group closes at the first reading that is more than 13 m on: at 14 m.
    ("timers_start_late", [(1, "/steps/4/telegram", ["closes 14 m after", "N_PIG 1 "])],
     "{steps: [use: staff, {telegram: \"NID_BG 7, N_TOTAL 1, M_DUP 1, Q_LINK 0; 12: V_MAIN 24, L_ENDSECTION 300, T_SECTIONTIMER 60, "
     "D_SECTIONTIMERSTOPLOC 100\"}, {drive: 14 m at 10 km/h}]}", "N_TOTAL 1, M_DUP 1, ", ""),
    ("timer_of_v_loa_starts_late", [(1, "/steps/4/telegram", ["closes 14 m after"])],
     "{steps: [use: staff, {telegram: \"NID_BG 7, N_TOTAL 1, M_DUP 1, Q_LINK 0; 12: V_MAIN 24, V_LOA 4, T_LOA 60, L_ENDSECTION 300\"}, "
     "{drive: 14 m at 10 km/h}]}", "V_LOA 4", "V_LOA 0"),
    ("v_loa_that_never_ends_of_such_a_group", [(44, "/steps/4/telegram", ["V_LOA 20 km/h with T_LOA 1023"])],
     "{steps: [use: staff, {telegram: \"NID_BG 7, N_TOTAL 1, M_DUP 1, Q_LINK 0; 12: V_MAIN 24, V_LOA 4, T_LOA 1023, L_ENDSECTION 300\"}, "
     "{drive: 14 m at 10 km/h}]}", "V_LOA 4", "V_LOA 0"),
    ("a_broken_group_is_lost", [(2, "/steps/4/telegram", ["group 1/7 of 2 balises", "packet 65;"])],
     "{steps: [use: staff, {telegram: \"NID_BG 7, N_TOTAL 1, Q_LINK 1; 65: NID_TSR 1, D_TSR 0, L_TSR 50, Q_FRONT 1, V_TSR 4\"}, {drive: 3 m at 10 km/h}, "
     "{telegram: \"NID_BG 7, N_PIG 1, N_TOTAL 1, Q_LINK 1\"}]}", "Q_LINK 1", "Q_LINK 0"),
    ("linking_reaction_none", [(2, "/steps/0/telegram", ["group 1/3", "packet 65,", "Q_LINKREACTION 2"])],
     "{groups: [{at: 400 m, balises: [\"NID_BG 3; 65: NID_TSR 1, D_TSR 100, L_TSR 50, Q_FRONT 1, V_TSR 8\"]}], "
     f"steps: [{full(f'; 5: {link(3, 400, 2)}', 1500)}, {{drive: 400 m at 30 km/h}}]}}", "Q_LINKREACTION 2", "Q_LINKREACTION 1"),
    ("trip_in_unfitted", [(3, "/steps/4/telegram", ["group 1/3", "400 m", "in UN"])],
     f"{{steps: [use: unfitted, {{telegram: \"NID_BG 7; 5: {link(3, 400, 0)}\"}}, {{drive: 450 m at 30 km/h}}]}}", "Q_LINKREACTION 0", "Q_LINKREACTION 1"),
    ("two_packets_3", [(4, "/steps/4/telegram", ["group 1/7 closes", "2 packets 3"])],
     f"{{steps: [use: staff, {{telegram: \"NID_BG 7; {VALUES}; {VALUES}\"}}]}}", f"{VALUES}; {VALUES}", VALUES),
    ("two_groups_with_packets_41_in_one_event", [(4, "/steps/6/telegram", ["group 1/7 and group 1/8 close", "2 packets 41"])],
     "{steps: [use: staff, {telegram: \"NID_BG 7, N_TOTAL 1, M_DUP 1, Q_LINK 0; 41: D_LEVELTR 32767, M_LEVELTR 2, L_ACKLEVELTR 0\"}, "
     "{drive: 5 m at 10 km/h}, {telegram: \"NID_BG 8; 41: D_LEVELTR 32767, M_LEVELTR 2, L_ACKLEVELTR 0\"}]}",
     "NID_BG 8; 41: D_LEVELTR 32767, M_LEVELTR 2, L_ACKLEVELTR 0", "NID_BG 8"),
    # At 100 m the uncertainty is 500 + 10,000 / 20 cm.
    ("a_fix_leaves_old_places", [(5, "/steps/6/telegram", ["group 1/8", "at 100 m", "from 10 m to 5 m", "restriction 1 of group 1/7"])],
     "{steps: [use: staff, {telegram: \"NID_BG 7; 65: NID_TSR 1, D_TSR 50, L_TSR 100, Q_FRONT 1, V_TSR 7\"}, {drive: 100 m at 30 km/h}, "
     "{telegram: \"NID_BG 8\"}]}", "NID_BG 7; 65", f"NID_BG 7; 5: {link(8, 100)}; 65"),
    ("a_long_train_in_shunting", [(6, "/steps/7/driver", ["a train of 1200 m enters SH", "restriction 1;"])],
     "{steps: [choose_level: 1, enter_identity: A, enter_train_data: {length: 1200 m, maximum: 160 km/h, deceleration: 0.7 m/s2}, start, "
     "{telegram: \"NID_BG 7; 65: NID_TSR 1, D_TSR 0, L_TSR 2000, Q_FRONT 1, V_TSR 8\"}, {drive: 1500 m at 30 km/h}, {drive: 0 m at 0 km/h}, "
     "choose_shunting]}", "1200 m", "1000 m"),
    ("v_main_0_alone", [(7, "/steps/0/telegram", ["V_MAIN 0", "300 m ahead", "used in SB"])],
     f"{{steps: [{full('').replace('V_MAIN 24', 'V_MAIN 0')}]}}", "V_MAIN 0", "V_MAIN 24"),
    ("a_gap_between_areas", [(8, "/steps/0/telegram", ["150 m are left, from 150 m on"])], areas(50, 200), "D_MAMODE 200", "D_MAMODE 50"),
    ("shunting_over_a_restriction", [(8, "/steps/4/telegram", ["restriction 1 of 20 km/h", "30 km/h"])],
     "{steps: [use: shunting, {telegram: \"NID_BG 7; 65: NID_TSR 1, D_TSR 0, L_TSR 50, Q_FRONT 1, V_TSR 4\"}]}", "V_TSR 4", "V_TSR 6"),
    ("shunting_with_a_slow_train", [(8, "/steps/3/driver", ["maximum speed of 25 km/h", "30 km/h"])],
     "{steps: [choose_level: 1, enter_identity: A, enter_train_data: {length: 200 m, maximum: 25 km/h, deceleration: 0.7 m/s2}, choose_shunting]}",
     "25 km/h", "30 km/h"),
    ("an_override_without_end", [(9, "/steps/4/telegram", ["T_NVOVTRP 255 of group 1/7"])],
     f"{{steps: [use: staff, {{telegram: \"NID_BG 7; {VALUES.replace('T_NVOVTRP 60', 'T_NVOVTRP 255')}\"}}]}}", "T_NVOVTRP 255", "T_NVOVTRP 60"),
    # At 350 m the maximum safe front is at 35,000 + 500 + 1,750 cm: the area at 400 m has been asked about since 300 m.
    ("an_area_in_place_of_another", [(10, "/steps/6/telegram", ["On Sight area at 450 m", "the one at 400 m"])],
     "{steps: [telegram: on_sight, use: level_1, start, {drive: 350 m at 20 km/h}, "
     "{telegram: \"NID_BG 7; 80: D_MAMODE 100, M_MAMODE 0, V_MAMODE 6, L_MAMODE 300, L_ACKMAMODE 100\"}]}", "D_MAMODE 100,", "D_MAMODE 50,"),
    # In 5 s a train runs 30,000 * 5 / 36 = 4,166 cm.
    ("areas_within_5_s", [(8, "/steps/0/telegram", ["20 m are left"]), (11, "/steps/0/telegram", ["begin 40 m apart", "30 km/h"])],
     areas(20, 40), "D_MAMODE 40", "D_MAMODE 20"),
    ("areas_farther_apart", [(8, "/steps/0/telegram", ["22 m are left"])], areas(20, 42), "D_MAMODE 42", "D_MAMODE 20"),
    ("backward_with_speed_0", [(12, "/steps/4/drive", ["1.5 m backward"])],
     "{steps: [use: staff, {drive: -1.5 m at 0 km/h}]}", "at 0 km/h", "at 1 km/h"),
    # (20,000 * 120,000 + 100,000,000) / 181,440 = 13,778.7 cm.
    ("a_danger_point_within_the_margin", [(14, "/steps/0/telegram", ["is 137 m beyond", "120 km/h with 70 cm/s2", "137.79 m"])],
     f"{{steps: [{full(', D_DP 137, V_RELEASEDP 126')}]}}", "D_DP 137", "D_DP 138"),
    # 10 per mille downhill take 9.81 cm/s2, rounded up: 2,500,000,000 / (2,592 * 60) = 16,075.1, and in 1 s 10,000 / 36 = 277.8 cm.
    ("a_margin_on_a_slope", [(14, "/steps/3/telegram", ["is 163 m beyond", "60 cm/s2 and 1000 ms", "163.54 m"])],
     "{steps: [choose_level: 1, enter_identity: A, enter_train_data: {length: 200 m, maximum: 160 km/h, deceleration: 0.7 m/s2, reaction: 1 s}, "
     "{telegram: \"NID_BG 2; 12: V_MAIN 24, L_ENDSECTION 300, D_DP 163, V_RELEASEDP 126; 21: D_GRADIENT 0, Q_GDIR 0, G_A 10; "
     "27: D_STATIC 0, V_STATIC 24, Q_FRONT 1\"}]}", "D_DP 163", "D_DP 164"),
    ("an_overlap_within_the_margin", [(14, "/steps/0/telegram", ["the overlap", "is 100 m beyond", "137.79 m"])],
     f"{{steps: [{full(', D_STARTOL 0, T_OL 60, D_OL 100, V_RELEASEOL 3')}]}}", "D_OL 100", "D_OL 138"),
    ("a_release_speed_above_v_loa", [(15, "/steps/0/telegram", ["danger point of group 1/2 is 40 km/h", "60 s", "V_LOA, 5 km/h"])],
     f"{{steps: [{full(', D_DP 500, V_RELEASEDP 127').replace('V_MAIN 24', 'V_MAIN 24, V_LOA 1, T_LOA 60')}]}}", "V_RELEASEDP 127", "V_RELEASEDP 1"),
    ("a_danger_point_after_an_overlap", [(15, "/steps/0/telegram", ["60 s", "150 m at 40 km/h", "200 m at 15 km/h"])],
     f"{{steps: [{full(', D_DP 150, V_RELEASEDP 8, D_STARTOL 0, T_OL 60, D_OL 200, V_RELEASEOL 3')}]}}", "V_RELEASEDP 8", "V_RELEASEDP 3"),
    ("an_override_that_ends", [(15, "/steps/9/clock", ["from 30 km/h to 40 km/h"])],
     f"{{steps: [{{telegram: \"NID_BG 9; {VALUES}\"}}, telegram: authority, use: level_1, start, {{drive: 0 m at 0 km/h}}, {{clock: 1 s}}, override, "
     "{clock: 61 s}]}", "V_NVSTFF 8", "V_NVSTFF 6"),
    # 500 + 150,000 / 20 = 8,000; twice that and 100,000,000 / 181,440 = 551.1 cm.
    ("creeping_to_a_danger_point", [(16, "/steps/0/telegram", ["is 165 m beyond", "may be 80 m", "165.52 m"])],
     f"{{steps: [{full(', D_DP 165, V_RELEASEDP 126', 1500)}]}}", "D_DP 165", "D_DP 166"),
    # A group 100 m before the end, to 5 m: 500 + 500 + 10,000 / 20 = 1,500, and 2 * 1,500 + 552 cm.
    ("creeping_after_a_group", [(14, "/steps/0/telegram", ["35 m", "137.79 m"]), (16, "/steps/0/telegram", ["is 35 m", "may be 15 m", "35.52 m"])],
     f"{{steps: [{full(f', D_DP 35, V_RELEASEDP 126; 5: {link(3, 1400)}', 1500)}]}}", "D_DP 35", "D_DP 138"),
    ("train_data_better_than_the_train", [(27, "/drive", ["70 cm/s2", "brakes with 60"])], drive("service: 0.6 m/s2"), "0.6 m/s2", "0.7 m/s2"),
    ("a_reaction_that_is_not_entered", [(27, "/drive", ["0 ms", "500 ms", "within 1000 ms"])],
     drive("service: 0.7 m/s2, reaction: 500 ms, build_up: 1 s"), ", reaction: 500 ms, build_up: 1 s", ""),
    # The group is 21 m long: 2,100 - 500 - (10,000 + 2,100) / 20 = 995 cm.
    ("a_group_longer_than_its_accuracy", [(31, "/steps/0/telegram", ["21 m long", "Q_LOCACC 9 m", "11.05 m, 9.95 m are left", "Q_LOCACC 21"])],
     eight(9), "Q_LOCACC 9", "Q_LOCACC 21"),
    ("a_group_that_a_wrong_odometer_misses", [(31, "/steps/0/telegram", ["21 m long", "Q_LOCACC 10 m", "reads too much", "Q_LOCACC 21"])],
     eight(10), "Q_LOCACC 10", "Q_LOCACC 21"),
    # 1,300 and the longest reading, 10,000 cm, are more than 63 m. With readings of 50 m they are just as much.
    ("a_group_that_closes_by_the_path", [(31, "/steps/0/telegram", ["0 m long", "up to 113 m", "Q_LOCACC 63 m", "each 50 m"])],
     "{groups: [{at: 100 m, balises: [\"NID_BG 3, N_TOTAL 1, M_DUP 1\"]}], "
     f"steps: [{full(f'; 5: {link(3, 100, accuracy=63)}', 1500)}, {{drive: 50 m at 30 km/h}}, {{drive: 50 m at 30 km/h}}, {{drive: 100 m at 30 km/h}}]}}",
     "{drive: 100 m at 30 km/h}", "{drive: 50 m at 30 km/h}"),
    # At 1,000 m the uncertainty is 500 + 100,000 / 20 cm.
    ("a_place_that_no_fix_moves", [(32, "/groups/0/balises/0", ["group 1/7", "restriction 1", "by 55 m", "group 1/4"])],
     "{groups: [{at: 1000 m, balises: [\"NID_BG 7, Q_LINK 0; 65: NID_TSR 1, D_TSR 100, L_TSR 200, Q_FRONT 1, V_TSR 2\"]}, "
     "{at: 1050 m, balises: [\"NID_BG 4\"]}], " f"steps: [{full(f'; 5: {link(7, 1000)}, {link(4, 50)}', 1500)}, {{drive: 1060 m at 5 km/h}}]}}",
     "Q_LINK 0", "Q_LINK 1"),
    # (50,000 ^ 2 - 20,000 ^ 2) / 181,440 = 11,574.1 cm.
    ("a_restriction_in_staff_responsible", [(33, "/steps/4/telegram", ["restriction 1 at 100 m", "SR", "from 40 km/h to 20 km/h", "115.75 m"])],
     "{steps: [use: staff, {telegram: \"NID_BG 7; 65: NID_TSR 1, D_TSR 100, L_TSR 50, Q_FRONT 1, V_TSR 4\"}, {drive: 120 m at 20 km/h}]}",
     "V_TSR 4", "V_TSR 7"),
    # (110,000 ^ 2 - 20,000 ^ 2) / 181,440 = 64,484.1 cm.
    ("a_restriction_in_unfitted", [(33, "/steps/4/telegram", ["UN", "from 100 km/h to 20 km/h", "644.85 m"])],
     "{steps: [use: unfitted, {telegram: \"NID_BG 7; 65: NID_TSR 1, D_TSR 100, L_TSR 50, Q_FRONT 1, V_TSR 4\"}, {drive: 120 m at 20 km/h}]}",
     "V_TSR 4", "V_TSR 19"),
    ("a_slow_shunting_area", [(35, "/steps/0/telegram", ["at 400 m", "V_MAMODE 10 km/h", "V_NVSHUNT, 30 km/h"])],
     f"{{steps: [{full('; 80: D_MAMODE 400, M_MAMODE 1, V_MAMODE 2, L_MAMODE 300, L_ACKMAMODE 100', 1500)}]}}", "V_MAMODE 2", "V_MAMODE 6"),
    ("an_odometer_beyond_the_formula", [(36, "/drive", ["94.9 %"])], drive("service: 0.7 m/s2, odometer: 94.9 %"), "94.9 %", "95 %"),
    ("an_overlap_without_end", [(37, "/steps/0/telegram", ["T_OL 1023"])],
     f"{{steps: [{full(', D_STARTOL 0, T_OL 1023, D_OL 200, V_RELEASEOL 3')}]}}", "T_OL 1023", "T_OL 60"),
    ("a_slope_shorter_than_the_train", [(38, "/steps/0/telegram", ["-20 per mille over 199 m", "from 100 m", "a train of 200 m"])],
     f"{{steps: [{full('', 500).replace('G_A 0', 'G_A 0, D_GRADIENT 100, Q_GDIR 0, G_A 20, D_GRADIENT 199, Q_GDIR 1, G_A 0')}]}}",
     "D_GRADIENT 199", "D_GRADIENT 200"),
    ("a_packet_3_of_an_installed_track", [(39, "/steps/4/telegram", ["176 bits, and 147"])],
     f'{{steps: [use: staff, {{telegram: "{INSTALLED}"}}]}}', INSTALLED, f"NID_BG 7; {VALUES}"),
    ("a_packet_3_with_a_country_first", [(39, "/steps/4/telegram", ["186 bits, and 157"])],
     f'{{steps: [use: staff, {{telegram: "{COUNTRY_FIRST}"}}]}}', COUNTRY_FIRST, f"NID_BG 7; {VALUES}"),
    ("an_authority_in_level_0", [(40, "/steps/4/telegram", ["group 1/7", "level 0"])],
     f"{{steps: [use: unfitted, {{telegram: \"NID_BG 7; 12: V_MAIN 24, L_ENDSECTION 300; {PROFILE}\"}}]}}",
     "NID_BG 7; ", "NID_BG 7; 41: D_LEVELTR 300, M_LEVELTR 2, L_ACKLEVELTR 0; "),
    ("a_country_without_values", [(41, "/steps/5/telegram", ["group 2/9", "country 2", "for 1;"])],
     f"{{steps: [use: staff, {{telegram: \"NID_BG 7; {VALUES}\"}}, {{telegram: \"NID_C 2, NID_BG 9\"}}]}}",
     "D_VALIDNV 32767,", "D_VALIDNV 32767, NID_C 2,"),
    # Without a movement the uncertainty stays as it is; a restriction of 10 m ends before the minimum safe front, at 90 m.
    ("a_fix_that_takes_no_uncertainty", [(5, "/steps/6/telegram", ["from 10 m to 5 m"])],
     "{steps: [use: staff, {telegram: \"NID_BG 7; 65: NID_TSR 1, D_TSR 50, L_TSR 100, Q_FRONT 1, V_TSR 7\"}, {drive: 100 m at 30 km/h}, "
     "{telegram: \"NID_BG 8\"}]}", "100 m at 30 km/h", "0 m at 0 km/h"),
    ("a_fix_beyond_a_restriction", [(5, "/steps/6/telegram", ["restriction 1 of group 1/7"])],
     "{steps: [use: staff, {telegram: \"NID_BG 7; 65: NID_TSR 1, D_TSR 50, L_TSR 100, Q_FRONT 1, V_TSR 7\"}, {drive: 100 m at 30 km/h}, "
     "{telegram: \"NID_BG 8\"}]}", "L_TSR 100", "L_TSR 10"),
    # After the only group that was announced a group of two balises counts as one that isn't.
    ("a_group_after_an_announced_one", [(2, "/groups/1/balises/0", ["group 1/7 of 2 balises"])],
     "{groups: [{at: 100 m, balises: [\"NID_BG 3\"]}, {at: 103 m, spacing: 3 m, balises: [\"NID_BG 7, N_TOTAL 1, Q_LINK 1; 65: NID_TSR 1, D_TSR 0, "
     "L_TSR 50, Q_FRONT 1, V_TSR 8\", \"NID_BG 7, N_PIG 1, N_TOTAL 1, Q_LINK 1\"]}], "
     f"steps: [{full(f'; 5: {link(3, 100)}', 1500)}, {{drive: 110 m at 30 km/h}}]}}", "N_TOTAL 1, Q_LINK 1", "N_TOTAL 1, Q_LINK 0"),
    ("an_area_that_a_mode_deleted", [(10, "/steps/6/telegram", ["On Sight area at 450 m"])],
     "{steps: [telegram: on_sight, use: level_1, start, {drive: 350 m at 20 km/h}, "
     "{telegram: \"NID_BG 7; 80: D_MAMODE 100, M_MAMODE 0, V_MAMODE 6, L_MAMODE 300, L_ACKMAMODE 100\"}]}",
     "at 20 km/h}, ", "at 20 km/h}, {drive: 0 m at 0 km/h}, override, "),
    # (20,000 * 60,000 + 100,000,000) / 181,440 = 7,164.9 cm.
    ("a_margin_by_v_main", [(14, "/steps/0/telegram", ["from 60 km/h", "71.65 m"])],
     f"{{steps: [{full(', D_DP 71, V_RELEASEDP 126').replace('V_MAIN 24', 'V_MAIN 12')}]}}", "D_DP 71", "D_DP 72"),
    ("an_authority_that_is_not_used", [(14, "/steps/4/telegram", ["is 50 m beyond"])],
     "{steps: [use: staff, {telegram: \"NID_BG 7; 12: V_MAIN 24, L_ENDSECTION 300, D_DP 50, V_RELEASEDP 126\"}]}", "use: staff", "use: shunting"),
    # Where it never ends, no release speed takes its place.
    ("a_v_loa_without_end", [(44, "/steps/0/telegram", ["V_LOA 5 km/h with T_LOA 1023", "300 m ahead"])],
     f"{{steps: [{full(', D_DP 500, V_RELEASEDP 127').replace('V_MAIN 24', 'V_MAIN 24, V_LOA 1, T_LOA 1023')}]}}", "V_LOA 1,", "V_LOA 0,"),
    # 100,000 * 36 / 36 = 100,000 cm, and 99,900 are known beyond the end; in 35 s it is 97,223 cm.
    ("a_v_loa_beyond_the_known_track", [(44, "/steps/0/telegram", ["V_LOA 100 km/h for T_LOA 36 s", "runs 1000 m", "known for 999 m", "at most 35 s"])],
     f"{{steps: [{loa(36, ', D_STATIC 1499, V_STATIC 127, Q_FRONT 1')}]}}", "D_STATIC 1499", "D_STATIC 1500"),
    ("a_v_loa_that_lasts_too_long", [(44, "/steps/0/telegram", ["T_LOA 37 s", "runs 1027.78 m", "known for 1000 m", "at most 36 s"])],
     f"{{steps: [{loa(37, ', D_STATIC 1500, V_STATIC 127, Q_FRONT 1')}]}}", "T_LOA 37", "T_LOA 36"),
    ("a_v_loa_up_to_where_the_track_ends", [(44, "/steps/0/telegram", ["T_LOA 1 s", "runs 27.78 m", "known for 0 m", "at most 0 s"])],
     f"{{steps: [{loa(1, ', D_STATIC 500, V_STATIC 127, Q_FRONT 1')}]}}", "T_LOA 1,", "T_LOA 0,"),
    ("a_v_loa_before_a_stop", [(44, "/steps/0/telegram", ["known for 100 m"])],
     f"{{steps: [{loa(60, ', D_STATIC 500, V_STATIC 2, Q_FRONT 1, D_STATIC 100, V_STATIC 127, Q_FRONT 1')}]}}", "V_STATIC 2,", "V_STATIC 0,"),
    # A later list of static speeds that ends nearer.
    ("a_known_track_that_is_cut_off", [(44, "/steps/0/telegram", ["known for 200 m"])],
     f"{{steps: [{loa(60, '')}, {{telegram: \"NID_BG 7; 27: D_STATIC 0, V_STATIC 24, Q_FRONT 1, D_STATIC 700, V_STATIC 127, Q_FRONT 1\"}}]}}",
     ", D_STATIC 700, V_STATIC 127, Q_FRONT 1", ""),
    ("version_1_1", [(40, "/steps/4/telegram", ["M_VERSION 17, version 1.1", "2.3.0 uses it"])],
     f'{{steps: [use: staff, {{telegram: "91{RESTRICTION}"}}]}}', f"91{RESTRICTION}", f"90{RESTRICTION}"),
    ("version_2_0", [(40, "/steps/4/telegram", ["M_VERSION 32, version 2.0", "2.3.0 trips"])],
     f'{{steps: [use: staff, {{telegram: "A0{RESTRICTION}"}}]}}', f"A0{RESTRICTION}", f"90{RESTRICTION}"),
    # What a train of issue 2.3.0 does by an invalid value with Q_LINK 0 (V_TSR 121 here), and by a packet of a telegram of version 1.1.
    ("an_invalid_value_of_an_unlinked_group", [(40, "/steps/4/telegram", ["OutOfRange", "service brake"])],
     f'{{steps: [use: staff, {{telegram: "{INVALID}"}}]}}', INVALID, f"90{RESTRICTION}"),
    ("a_stop_in_a_telegram_of_version_1_1", [(40, "/steps/4/telegram", ["version 1.1"]),
                                             (45, "/steps/4/telegram", ["packet 137 ", "version 1.1", "trips in Staff Responsible (4.6.3, sure)"])],
     f'{{steps: [use: staff, {{telegram: "91{STOP}"}}]}}', f"91{STOP}", f"90{RESTRICTION}"),
    ("a_group_of_unknown_identity", [(40, "/steps/0/telegram", ["group 1/2", "NID_BG 16383 at 100 m", "Q_LINKREACTION 1 is applied"])],
     f"{{steps: [{full(f'; 5: {link(16383, 100)}', 1500)}]}}", "NID_BG 16383", "NID_BG 3"),
    *(skipped(number, packet, text) for number, packet, text in (
        (16, "16: L_SECTION 50", "takes L_SECTION from this group on"),
        (46, "46: M_LEVELTR 0", "changes to a level of the list"),
        (49, "49: NID_BG 8, NID_C 2, NID_BG 9", "trips in Shunting at each group that isn't listed"),
        (51, "51: D_AXLELOAD 0, L_AXLELOAD 200, Q_FRONT 0, M_AXLELOAD 40, V_AXLELOAD 4", "the speed for its axle load"),
        (70, "70: D_SUITABILITY 50, Q_SUITABILITY 0, M_LOADINGGAUGE 1", "stops before the place"),
        (71, "71: D_ADHESION 0, L_ADHESION 1000, M_ADHESION 0", "brakes by what slippery rails allow"),
        (132, "132: Q_ASPECT 0", "trips in Shunting"),
        (135, "135", "doesn't go on with Shunting"),
        (137, "137: Q_SRSTOP 0", "trips in Staff Responsible"),
        # what asks for nothing, and what isn't for this direction: only that it is skipped is found
        (51, "51: Q_TRACKINIT 1, D_TRACKINIT 0", None),
        (70, "70: Q_TRACKINIT 1, D_TRACKINIT 0", None),
        (71, "71: D_ADHESION 0, L_ADHESION 1000, M_ADHESION 1", None),
        (132, "132: Q_ASPECT 1", None),
        (137, "137: Q_SRSTOP 1", None),
        (137, "137: Q_DIR 0, Q_SRSTOP 0", None),
        (90, "90: NID_C 3, NID_BG 9", None),
    )),
    # A group that is passed in the reverse direction: its second balise comes first.
    ("a_stop_for_the_reverse_direction", [(45, "/steps/6/telegram", ["group 1/7", "137"])],
     "{steps: [use: staff, {telegram: \"NID_BG 7, N_PIG 1, N_TOTAL 1\"}, {drive: 3 m at 10 km/h}, "
     "{telegram: \"NID_BG 7, N_TOTAL 1; 137: Q_DIR 0, Q_SRSTOP 0\"}]}", "; 137: Q_DIR 0, Q_SRSTOP 0", ""),
]


def lab(env, *words, cwd=None):
    """A run of `./lab lint`."""
    return subprocess.run([TOP / "lab", "lint", *map(str, words)], capture_output=True, text=True, env=env, cwd=cwd)


def found_in(env, *words):
    """The findings of a run, by case."""
    found = {}
    done = lab(env, *words, "--json")
    for line in done.stdout.splitlines():
        finding = json.loads(line)
        found.setdefault(finding["case"], []).append(finding)
    return found, done


def is_wanted(finding, wanted):
    item, pointer, texts = wanted
    said = json.dumps(finding)
    return finding.get("safety") == item and finding["pointer"] == pointer and all(text in said for text in texts)


def check_rows(env, wrong):
    """Each row has exactly its findings, and none once it is mended."""
    with tempfile.TemporaryDirectory() as room:
        shutil.copy(TOP / "examples/suites/common.yaml", room)
        text = []
        for name, _, life, old, new in ROWS:
            if life.count(old) < 1:
                wrong.append(f"{name}: \"{old}\" isn't there")
            for which, one in (("fault", life), ("mended", life.replace(old, new))):
                text.append(HEAD.replace("NAME", f"{name}.{which}") + "  - " + one + "\n")
        Path(room, "rows.case.yaml").write_text("---\n".join(text))
        found, done = found_in(env, room)
        if done.returncode != 4 or "fault of lab" in done.stderr:
            wrong.append(f"status {done.returncode}: {done.stderr}")
        for name, wanted, *_ in ROWS:
            there = found.get(f"{name}.fault", [])
            if len(there) != len(wanted) or not all(is_wanted(one, other) for one, other in zip(there, wanted)):
                wrong.append(f"{name}: wanted {wanted}, found {there}")
            if f"{name}.mended" in found:
                wrong.append(f"{name}: mended, and there is {found[f'{name}.mended']}")
            lines = {finding["line"] for finding in there}
            at = [number for number, line in enumerate("---\n".join(text).splitlines(), 1) if line == f"test_case: {name}.fault"][0]
            if any(not at < line < at + 30 for line in lines):
                wrong.append(f"{name}: lines {lines}, and the case begins in {at}")


SCENARIO = """{"groups": [],
 "steps": [
  {"driver": [1, "A"]}, {"driver": [4, 1]}, {"driver": [3, 20000, 160000, 70, 0, 15]}, {"driver": [6]},
  {"drive": [-150, 0]},
  {"driver": [7]}, {"driver": [7]}
]}
"""
# Line and column of what is found in it: the backward reading.
PLACES = [(12, 4, 13, "/steps/4/drive")]
EXAMPLES = {"staff_responsible/scenario.json": [(33, "/groups/0/balises/0")]}

# A text, and the faults that are found in it, counted by hand: line, column, pointer, what is wanted, what is there. A tab is one column.
WHOLE, STEP = "an object of groups, steps and perhaps cold", "an object of one member: drive, telegram, clock, driver or flush"
FAULTS = [
    ('{"groups": [],\n "steps": [{"flush": 1}]}', [(2, 22, "/steps/0/flush", "true", "1")]),
    ('{\r\n\t"groups": [],\r\n\t"steps":\t5}', [(3, 11, "/steps", "a list of steps", "5")]),
    ('{"groups": [{"at": "1", "spacing": 1201, "balises": []}], "steps": []}', [
        (1, 20, "/groups/0/at", "a whole number from 1 to 100000000 (cm)", '"1"'), (1, 53, "/groups/0/balises", "a list of 1 to 8 telegrams", "[]"),
        (1, 36, "/groups/0/spacing", "a whole number from 1 to 1200 (cm)", "1201")]),
    ('{"groups": [{"at": 1, "spacing": 1, "balises": ["9"]}], "steps": [{"clock": 1.0}, []]}', [
        (1, 49, "/groups/0/balises/0", "a text of 1 to 104 bytes, two hexadecimal digits each", '"9"'),
        (1, 77, "/steps/0/clock", "a whole number from 0 to 1099511627775 (ms)", "1.0"), (1, 83, "/steps/1", STEP, "[]")]),
    ('{"groups": [], "steps": [{"driver": [5]}, {"driver": [7, 1]}, {"driver": [12]}, {"driver": [4, 2]}]}', [
        (1, 37, "/steps/0/driver", "[5, what is confirmed]", "[5]"), (1, 54, "/steps/1/driver", "a code without values", "[7, 1]"),
        (1, 75, "/steps/2/driver/0", "a code from 1 to 11", "12"), (1, 96, "/steps/3/driver/1", "level 0 or 1", "2")]),
    ('{"groups": [], "cold": 3}', [(1, 1, "", WHOLE, "'steps' is a required property"), (1, 24, "/cold", "0 (unknown), 1 (moved) or 2 (not moved)", "3")]),
    ('{"groups": [], "steps": [], "steps": []}', [(1, 1, "", "each name once in its object", '"steps" again')]),
    ('{\n  "groups": groups\n}\n', [(2, 13, "", "JSON (RFC 8259)", "Expecting value")]),
    ('{"groups": [], "steps": [{"clock": NaN}]}', [(1, 1, "", "JSON (RFC 8259)", "NaN is no number of JSON")]),
]
GROUP = {"at": 100, "spacing": 10, "balises": ["90"]}
# The least and the greatest number at a place of a scenario: `etcs run` accepts both, and refuses the next one on each side, as the schema does.
LIMITS = [
    (0, 2, lambda n: {"cold": n, "groups": [], "steps": []}),
    (1, 100_000_000, lambda n: laid(at=n)), (1, 1_200, lambda n: laid(spacing=n)), (1, 8, lambda n: laid(balises=["90"] * n)),
    (1, 104, lambda n: laid(balises=["90" * n])), (1, 104, lambda n: stepped(telegram="90" * n)),
    (-10_000, 1_000_000, lambda n: stepped(drive=[n, 0])), (0, 600_000, lambda n: stepped(drive=[0, n])), (2, 2, lambda n: stepped(drive=[0] * n)),
    (0, (1 << 40) - 1, lambda n: stepped(clock=n)), (1, 11, lambda n: stepped(driver={1: [1, "A"], 2: [2, 1], 3: [3, 1, 1, 1, 1, 1], 4: [4, 1], 5: [5, 1],
                                                                                      10: [10, 1]}.get(n, [n]))),
    (1, 16, lambda n: stepped(driver=[1, "~" * n])), (ord(" "), ord("~"), lambda n: stepped(driver=[1, chr(n)])), (0, 99_999_999, lambda n: stepped(driver=[2, n])),
    *((least, most, lambda n, k=k: stepped(driver=[3, *(n if i == k else 1 for i in range(5))]))
      for k, (least, most) in enumerate(((1, 409_500), (1, 600_000), (1, 300), (0, 10_000), (0, 15)))),
    (0, 1, lambda n: stepped(driver=[4, n])), (1, 4, lambda n: stepped(driver=[5, n])), (1, 4, lambda n: stepped(driver=[10, n])),
    (1, 1, lambda n: stepped(driver=[6] * n)), (1, 1, lambda n: stepped(driver=[11] * n)), (6, 6, lambda n: stepped(driver=[3, 1, 1, 1, 1, 1, 1][:n])),
]


def laid(**more):
    return {"groups": [GROUP | more], "steps": []}


def stepped(**step):
    return {"groups": [], "steps": [step]}


def check_faults(etcs, wrong):
    """The faults of scenarios in JSON, each at its place; and limits, as `etcs run` has them."""
    with tempfile.TemporaryDirectory() as room:
        path = Path(room, "s.json")
        for text, wanted in FAULTS:
            path.write_text(text, newline="")
            found = [(one.place["line"], one.place["column"], one.pointer, one.members["wanted"], one.members["there"])
                     for one in lint.lines_of(next(lint.of_file(path)))]
            if found != wanted:
                wrong.append(f"faults of {text!r}: wanted {wanted}, found {found}")
        for least, most, made in LIMITS:
            for number in (least, most, least - 1, most + 1):
                path.write_text(json.dumps(made(number)))
                is_refused = subprocess.run([etcs, "run", path, Path(room, "none")], capture_output=True, text=True).stdout.startswith("refused ")
                if is_refused == (least <= number <= most) or bool(list(scenario_faults.faults(path))) != is_refused:
                    wrong.append(f"{made(number)}: etcs run refuses it: {is_refused}; faults: {list(scenario_faults.faults(path))}")


def item_and_place(finding):
    return finding.get("safety"), finding["pointer"]


def check_words(env, wrong):
    """Places in JSON, faults first, what is left out, words of cases, and each status."""
    def wanted(name, holds, done):
        if not holds:
            wrong.append(f"{name}: status {done.returncode}: {done.stdout} {done.stderr}")

    with tempfile.TemporaryDirectory() as room:
        path = Path(room, "s.json")
        path.write_text(SCENARIO)
        done = lab(env, "s.json", "--json", cwd=room)
        findings = [json.loads(line) for line in done.stdout.splitlines()]
        wanted("places", [(one.get("safety"), one["line"], one["column"], one["pointer"]) for one in findings] == PLACES
               and done.returncode == 4 and all(one["file"] == "s.json" and one["case"] is None for one in findings), done)
        done = lab(env, "s.json", cwd=room)
        wanted("lines", re.fullmatch(r"s.json:4:13: SAFETY 12: /steps/4/drive: 1.5 m backward are read with speed 0, .*\. Do: .*\n", done.stdout), done)
        done = lab(env, "s.json", "--without", "12", cwd=room)
        wanted("without", (done.returncode, done.stdout) == (0, ""), done)
        path.write_text(SCENARIO.replace("[-150, 0]", "[-15000, 0]"))
        done = lab(env, "s.json", cwd=room)
        wanted("only faults", (done.returncode, done.stdout) == (4, "s.json:4:14: /steps/4/drive/0: wanted a whole number from -10000 to 1000000 (cm), found -15000\n"),
               done)
        path.write_text("{")
        done = lab(env, "s.json", cwd=room)
        wanted("no JSON", done.returncode == 4 and "wanted JSON (RFC 8259), found " in done.stdout, done)
        for name, words, status in (("wrong item", ["s.json", "--without", "13"], 2), ("no word", [], 2), ("another word", ["s.json", "--jsn"], 2),
                                    ("no file", ["t.json"], 3), ("an empty folder", ["empty"], 1)):
            Path(room, "empty").mkdir(exist_ok=True)
            done = lab(env, *words, cwd=room)
            wanted(name, done.returncode == status and done.stderr and not done.stdout, done)
        case = Path(room, "x.case.yaml")
        shutil.copy(TOP / "examples/suites/common.yaml", room)
        text = HEAD.replace("NAME", "x") + "  - {steps: [use: staff, {drive: -1.5 m at 0 km/h}]}\n"
        for shows, status, said in (("", 4, "SAFETY 12: "), ("shows: [12]\n", 0, ""), ("shows: [12, 33]\n", 4, "`shows` lists 33, and it isn't found"),
                                    ("shows: [0]\n", 1, None), ("shows: [all]\n", 1, None)):
            case.write_text(shows + text)
            done = lab(env, case.name, cwd=room)
            wanted(f"a case with {shows!r}", done.returncode == status and (bool(done.stderr) and not done.stdout if said is None else (said in done.stdout) and
                   bool(done.stdout) == bool(said)), done)
        Path(room, "s.yaml").write_text("include: common.yaml\nsteps:\n  - use: staff\n  - drive: -1.5 m at 0 km/h\n")
        done = lab(env, "s.yaml", cwd=room)
        wanted("a scenario in YAML", done.returncode == 4 and done.stdout.startswith("s.yaml:4:5: SAFETY 12: /steps/4/drive: "), done)
        Path(room, "skipped.yaml").write_text("include: common.yaml\nsteps:\n  - use: staff\n  - telegram: 'NID_BG 7; 137: Q_SRSTOP 0'\n")
        done = lab(env, "skipped.yaml", cwd=room)
        wanted("with the library", done.returncode == 4 and "SAFETY 45" in done.stdout, done)
        done = lab(env | {"GAKNIFUR_ETCS_UNIT": "none"}, "skipped.yaml", cwd=room)
        wanted("without the library", done.returncode == 3 and not done.stdout
               and "; telegrams that the unit skips or refuses are not judged" in done.stderr, done)
        done = lab(env | {"GAKNIFUR_ETCS_UNIT": "none"}, "s.yaml", cwd=room)
        wanted("no library needed", done.returncode == 4 and not done.stderr, done)


def check_own(env, wrong):
    """The suites have no findings but those that their cases show; the examples have those in EXAMPLES. tests/lab.sh drive checks examples/closed_loop,
    which needs the unit's library."""
    done = lab(env, TOP / "examples/suites")
    if done.returncode or done.stdout:
        wrong.append(f"suites: status {done.returncode}: {done.stdout} {done.stderr}")
    done = lab(env, *sorted((TOP / "examples").glob("*/*.json")), "--json")
    found = {}
    for line in done.stdout.splitlines():
        finding = json.loads(line)
        found.setdefault(Path(finding["file"]).relative_to(TOP / "examples").as_posix(), []).append(item_and_place(finding))
    if found != EXAMPLES:
        wrong.append(f"examples: {found}")


def main(etcs, lab_program):
    env = {**os.environ, "GAKNIFUR_ETCS": str(Path(etcs).resolve()), "GAKNIFUR_ETCS_LAB": str(Path(lab_program).resolve())}
    wrong = []
    check_rows(env, wrong)
    check_words(env, wrong)
    check_faults(etcs, wrong)
    check_own(env, wrong)
    for one in wrong:
        print(f"tests/lab/lint_rows.py: {one}")
    items = {item for _, wanted, *_ in ROWS for item, *_ in wanted}
    untried = sorted(set(track_checks.ITEMS) - items)
    cases = sum(path.read_text().count("test_case:") for path in (TOP / "examples/suites").glob("*case.yaml"))
    print(f"tests/lab/lint_rows.py: {len(ROWS)} tracks with a fault and mended, of {len(items)} items; untried items: {untried}; "
          f"{cases} cases of suites; {len(wrong)} wrong")
    return 0 if not wrong and not untried and len(ROWS) >= LEAST_ROWS and len(items) >= LEAST_ITEMS and cases >= LEAST_CASES else 1


if __name__ == "__main__":
    sys.exit(main(*sys.argv[1:]))
