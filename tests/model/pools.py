"""The telegrams in pseudo-random lists, by their fields (named.py)."""

# Restrictions and their revocations, of groups 2 to 11, of one balise but for the last two.
RESTRICTIONS = (
    # Restriction 7 from the group on for 20 m: 10 km/h and 5 km/h.
    "NID_BG 2; 65: NID_TSR 7, D_TSR 0, L_TSR 20, Q_FRONT 1, V_TSR 2",
    "NID_BG 2; 65: NID_TSR 7, D_TSR 0, L_TSR 20, Q_FRONT 1, V_TSR 1",
    # Restriction 8 of 20 km/h, 20 m ahead for 5 m, until the rear has left it.
    "NID_BG 3; 65: NID_TSR 8, D_TSR 20, L_TSR 5, Q_FRONT 0, V_TSR 4",
    # Restriction 255 of 30 km/h, 10 m ahead for 1 m.
    "NID_BG 4; 65: NID_TSR 255, D_TSR 10, L_TSR 1, Q_FRONT 1, V_TSR 6",
    # Restriction 255 of 35 km/h, from the group on for 12 m.
    "NID_BG 11; 65: NID_TSR 255, D_TSR 0, L_TSR 12, Q_FRONT 1, V_TSR 7",
    # 7 is revoked.
    "NID_BG 5; 66: NID_TSR 7",
    # 8 is revoked, and restriction 9 of 15 km/h is announced, from the group on for 2.5 m.
    "NID_BG 6; 66: NID_TSR 8; 65: Q_SCALE 0, NID_TSR 9, D_TSR 0, L_TSR 25, Q_FRONT 1, V_TSR 3",
    # 255 is revoked, and restriction 7 is announced for the nominal direction.
    "NID_BG 7; 66: NID_TSR 255; 65: Q_DIR 1, NID_TSR 7, D_TSR 0, L_TSR 30, Q_FRONT 1, V_TSR 1",
    # Counter 254.
    "M_MCOUNT 254, NID_BG 2; 65: NID_TSR 7, D_TSR 0, L_TSR 50, Q_FRONT 1, V_TSR 2",
    # No packet.
    "NID_BG 8",
    # Restriction 10 of 25 km/h, 3 m ahead for 4 m; after packet 136 restriction 11 of 5 km/h.
    "NID_BG 9; 65: NID_TSR 10, D_TSR 3, L_TSR 4, Q_FRONT 1, V_TSR 5; 136; 65: NID_TSR 11, D_TSR 0, L_TSR 50, "
    "Q_FRONT 1, V_TSR 1",
    # Restriction 8 with no length.
    "NID_BG 10; 65: NID_TSR 8, D_TSR 0, L_TSR 0, Q_FRONT 1, V_TSR 1",
    # No telegram.
    "NID_BG 2; 65: L_PACKET 72, NID_TSR 7, D_TSR 100, L_TSR 50, Q_FRONT 1, V_TSR 4",
    # N_TOTAL 1: place 0 and place 1.
    "N_TOTAL 1, NID_BG 2; 65: NID_TSR 7, D_TSR 0, L_TSR 50, Q_FRONT 1, V_TSR 2",
    "N_PIG 1, N_TOTAL 1, NID_BG 2; 65: NID_TSR 7, D_TSR 0, L_TSR 50, Q_FRONT 1, V_TSR 2",
)

# Groups of one, two and three balises, and linking.
GROUPS = (
    # Group 2 announces group 3 in its nominal direction, 10 m ahead, to 5 m, and group 4 in its reverse direction, 15
    # m after it, to 10 m.
    "NID_BG 2; 5: D_LINK 10, Q_NEWCOUNTRY 0, NID_BG 3, Q_LINKORIENTATION 1, Q_LINKREACTION 2, Q_LOCACC 5, N_ITER 1, "
    "D_LINK 15, Q_NEWCOUNTRY 0, NID_BG 4, Q_LINKORIENTATION 0, Q_LINKREACTION 2, Q_LOCACC 10",
    # Group 5 announces group 6 in its nominal direction, 8 m ahead, to 2 m.
    "NID_BG 5; 5: D_LINK 8, Q_NEWCOUNTRY 0, NID_BG 6, Q_LINKORIENTATION 1, Q_LINKREACTION 2, Q_LOCACC 2, N_ITER 0",
    # Restriction 7 of 10 km/h from group 3 on for 20 m; the same with counter 254.
    "NID_BG 3; 65: NID_TSR 7, D_TSR 0, L_TSR 20, Q_FRONT 1, V_TSR 2",
    "M_MCOUNT 254, NID_BG 3; 65: NID_TSR 7, D_TSR 0, L_TSR 20, Q_FRONT 1, V_TSR 2",
    # Group 4: restrictions of 5, 10 and 15 km/h for 5, 10 and 15 m with Q_DIR 0, 1 and 2.
    "NID_BG 4; 65: Q_DIR 0, NID_TSR 1, D_TSR 0, L_TSR 5, Q_FRONT 1, V_TSR 1; 65: Q_DIR 1, NID_TSR 2, D_TSR 0, "
    "L_TSR 10, Q_FRONT 1, V_TSR 2; 65: NID_TSR 3, D_TSR 0, L_TSR 15, Q_FRONT 1, V_TSR 3",
    # The two balises of group 6: restriction 8 of 20 km/h, 5 m ahead for 5 m, and restriction 9 of 25 km/h from the
    # group on for 10 m, until the rear has left it. Place 0 also with M_DUP 1 and with Q_LINK 0, place 1 also with
    # M_DUP 2 and with counter 3.
    "N_TOTAL 1, NID_BG 6; 65: NID_TSR 8, D_TSR 5, L_TSR 5, Q_FRONT 1, V_TSR 4",
    "N_PIG 1, N_TOTAL 1, NID_BG 6; 65: NID_TSR 9, D_TSR 0, L_TSR 10, Q_FRONT 0, V_TSR 5",
    "N_TOTAL 1, M_DUP 1, NID_BG 6; 65: NID_TSR 8, D_TSR 5, L_TSR 5, Q_FRONT 1, V_TSR 4",
    "N_TOTAL 1, NID_BG 6, Q_LINK 0; 65: NID_TSR 8, D_TSR 5, L_TSR 5, Q_FRONT 1, V_TSR 4",
    "N_PIG 1, N_TOTAL 1, M_DUP 2, NID_BG 6; 65: NID_TSR 9, D_TSR 0, L_TSR 10, Q_FRONT 0, V_TSR 5",
    "N_PIG 1, N_TOTAL 1, M_MCOUNT 3, NID_BG 6; 65: NID_TSR 9, D_TSR 0, L_TSR 10, Q_FRONT 0, V_TSR 5",
    # Group 7 with Q_LINK 0: restriction 255 of 30 km/h for 4 m. With Q_LINK 1: 7 is revoked, restriction 10 of 35 km/h
    # for 6 m.
    "NID_BG 7, Q_LINK 0; 65: NID_TSR 255, D_TSR 0, L_TSR 4, Q_FRONT 1, V_TSR 6",
    "NID_BG 7; 66: NID_TSR 7; 65: NID_TSR 10, D_TSR 0, L_TSR 6, Q_FRONT 1, V_TSR 7",
    # The three balises of group 8: group 9 is announced 12 m ahead, to 3 m; restriction 11 of 5 km/h, 2 m ahead for 2
    # m, in the nominal direction; 8 and 9 are revoked in the reverse direction.
    "N_TOTAL 2, NID_BG 8; 5: D_LINK 12, Q_NEWCOUNTRY 0, NID_BG 9, Q_LINKORIENTATION 1, Q_LINKREACTION 2, Q_LOCACC 3, "
    "N_ITER 0",
    "N_PIG 1, N_TOTAL 2, M_DUP 1, NID_BG 8; 65: Q_DIR 1, NID_TSR 11, D_TSR 2, L_TSR 2, Q_FRONT 1, V_TSR 1",
    "N_PIG 2, N_TOTAL 2, M_DUP 2, NID_BG 8; 66: Q_DIR 0, NID_TSR 8; 66: Q_DIR 0, NID_TSR 9",
    # No packet: group 9, and group 10.
    "NID_BG 9",
    "NID_BG 10",
)

# National values, authorities, gradients and static speeds.
TRACK = (
    # Group 2: an authority of 40 km/h over 20 m, 15 km/h at its end for 5 s, a danger point 4 m after it with 10
    # km/h; level track; 50 km/h.
    "NID_BG 2; 12: V_MAIN 8, V_LOA 3, T_LOA 5, N_ITER 0, L_ENDSECTION 20, Q_SECTIONTIMER 0, Q_ENDTIMER 0, "
    "Q_DANGERPOINT 1, D_DP 4, V_RELEASEDP 2, Q_OVERLAP 0; 21: D_GRADIENT 0, Q_GDIR 1, G_A 0, N_ITER 0; "
    "27: D_STATIC 0, V_STATIC 10, Q_FRONT 0, N_ITER 0, N_ITER 0",
    # Group 3: 30 km/h, after 10 m 10 km/h, an end mark 15 m after that.
    "NID_BG 3; 27: D_STATIC 0, V_STATIC 6, Q_FRONT 0, N_ITER 0, N_ITER 2, D_STATIC 10, V_STATIC 2, Q_FRONT 0, "
    "N_ITER 0, D_STATIC 15, V_STATIC 127, Q_FRONT 0, N_ITER 0",
    # Group 4: 25 km/h from 8 m ahead on, of category 3 20 km/h; 6 m after that 45 km/h, of category 3 35 km/h; both
    # until the front has left them.
    "NID_BG 4; 27: D_STATIC 8, V_STATIC 5, Q_FRONT 1, N_ITER 1, NC_DIFF 3, V_DIFF 4, N_ITER 1, D_STATIC 6, "
    "V_STATIC 9, Q_FRONT 1, N_ITER 2, NC_DIFF 15, V_DIFF 1, NC_DIFF 3, V_DIFF 7",
    # Group 5: an authority of 60 km/h over 10 m and 15 m; timers of 6 s and 9 s, that stop 8 m and 10 m after the
    # entries; an overlap of 6 m with V_NVREL, for 5 s from 12 m before the end on.
    "NID_BG 5; 12: V_MAIN 12, V_LOA 0, T_LOA 0, N_ITER 1, L_SECTION 10, Q_SECTIONTIMER 1, T_SECTIONTIMER 6, "
    "D_SECTIONTIMERSTOPLOC 8, L_ENDSECTION 15, Q_SECTIONTIMER 1, T_SECTIONTIMER 9, D_SECTIONTIMERSTOPLOC 10, "
    "Q_ENDTIMER 0, Q_DANGERPOINT 0, Q_OVERLAP 1, D_STARTOL 12, T_OL 5, D_OL 6, V_RELEASEOL 127",
    # Group 6: an authority of 80 km/h over 7 m and 5 m, 10 km/h at its end for 3 s; a timer of 4 s from 6 m before the
    # end; a danger point 3 m after it with 5 km/h, and an overlap of 6 m with 10 km/h, for 3 s from 9 m before the
    # end.
    "NID_BG 6; 12: V_MAIN 16, V_LOA 2, T_LOA 3, N_ITER 1, L_SECTION 7, Q_SECTIONTIMER 0, L_ENDSECTION 5, "
    "Q_SECTIONTIMER 0, Q_ENDTIMER 1, T_ENDTIMER 4, D_ENDTIMERSTARTLOC 6, Q_DANGERPOINT 1, D_DP 3, V_RELEASEDP 1, "
    "Q_OVERLAP 1, D_STARTOL 9, T_OL 3, D_OL 6, V_RELEASEOL 2",
    # Group 7: 20 per mille uphill for 14 m.
    "NID_BG 7; 21: D_GRADIENT 0, Q_GDIR 1, G_A 20, N_ITER 1, D_GRADIENT 14, Q_GDIR 0, G_A 255",
    # Group 8: 30 per mille downhill from 2 m ahead and 25 uphill from 10 m after that on, in steps of 10 cm.
    "NID_BG 8; 21: Q_SCALE 0, D_GRADIENT 20, Q_GDIR 0, G_A 30, N_ITER 1, D_GRADIENT 100, Q_GDIR 1, G_A 25",
    # Group 9: national values at once, also for country 2: 30 km/h, and 5 km/h to release.
    "NID_BG 9; 3: D_VALIDNV 32767, N_ITER 1, NID_C 2, V_NVSHUNT 6, V_NVSTFF 6, V_NVONSIGHT 6, V_NVUNFIT 20, "
    "V_NVREL 1, D_NVROLL 2, V_NVALLOWOVTRP 0, V_NVSUPOVTRP 6, D_NVOVTRP 200, T_NVOVTRP 60, D_NVSTFF 32767",
    # Group 10: national values from 15 m ahead on: 20 km/h, and 15 km/h to release.
    "NID_BG 10; 3: D_VALIDNV 15, N_ITER 0, V_NVSHUNT 6, V_NVSTFF 4, V_NVONSIGHT 6, V_NVUNFIT 20, V_NVREL 3, "
    "D_NVROLL 2, V_NVALLOWOVTRP 0, V_NVSUPOVTRP 6, D_NVOVTRP 200, T_NVOVTRP 60, D_NVSTFF 32767",
    # Groups of country 2 and of country 3, with no packets.
    "NID_C 2, NID_BG 10",
    "NID_C 3, NID_BG 11",
    # Group 2 announces group 3 in its nominal direction, 10 m ahead, to 5 m, and group 4 in its reverse direction, 15
    # m after it, to 10 m.
    "NID_BG 2; 5: D_LINK 10, Q_NEWCOUNTRY 0, NID_BG 3, Q_LINKORIENTATION 1, Q_LINKREACTION 2, Q_LOCACC 5, N_ITER 1, "
    "D_LINK 15, Q_NEWCOUNTRY 0, NID_BG 4, Q_LINKORIENTATION 0, Q_LINKREACTION 2, Q_LOCACC 10",
    # Group 3: restriction 7 of 10 km/h, 5 m ahead for 10 m; in its nominal direction 35 km/h.
    "NID_BG 3; 65: NID_TSR 7, D_TSR 5, L_TSR 10, Q_FRONT 0, V_TSR 2; 27: Q_DIR 1, D_STATIC 0, V_STATIC 7, Q_FRONT 0, "
    "N_ITER 0, N_ITER 0",
    # Group 4: an authority of 100 km/h over 30 m in its reverse direction, and one of 5 km/h in its nominal direction.
    "NID_BG 4; 12: Q_DIR 0, V_MAIN 20, V_LOA 0, T_LOA 1023, N_ITER 0, L_ENDSECTION 30, Q_SECTIONTIMER 0, "
    "Q_ENDTIMER 0, Q_DANGERPOINT 0, Q_OVERLAP 0; 12: Q_DIR 1, V_MAIN 1, V_LOA 0, T_LOA 1023, N_ITER 0, "
    "L_ENDSECTION 30, Q_SECTIONTIMER 0, Q_ENDTIMER 0, Q_DANGERPOINT 0, Q_OVERLAP 0",
    # Group 12: 7 is revoked, restriction 8 of 5 km/h, 3 m ahead for 2 m, until the front has left it.
    "NID_BG 12; 65: NID_TSR 8, D_TSR 3, L_TSR 2, Q_FRONT 1, V_TSR 1; 66: NID_TSR 7",
    # Group 13: end marks for the gradient and for the static speed.
    "NID_BG 13; 21: D_GRADIENT 0, Q_GDIR 0, G_A 255, N_ITER 0; 27: D_STATIC 0, V_STATIC 127, Q_FRONT 0, N_ITER 0, "
    "N_ITER 0",
    # Group 14: 10 per mille uphill, 70 km/h; after packet 136 5 km/h.
    "NID_BG 14; 21: D_GRADIENT 0, Q_GDIR 1, G_A 10, N_ITER 0; 27: D_STATIC 0, V_STATIC 14, Q_FRONT 0, N_ITER 0, "
    "N_ITER 0; 136; 27: D_STATIC 0, V_STATIC 1, Q_FRONT 0, N_ITER 0, N_ITER 0",
    # The two balises of group 15: an authority of 50 km/h over 5 m in the nominal direction, 20 km/h at its end for 3
    # s; in the reverse direction 15 km/h until the front has left it, and 45 km/h from 5 m ahead on.
    "N_TOTAL 1, NID_BG 15; 12: Q_DIR 1, V_MAIN 10, V_LOA 4, T_LOA 3, N_ITER 0, L_ENDSECTION 5, Q_SECTIONTIMER 0, "
    "Q_ENDTIMER 0, Q_DANGERPOINT 0, Q_OVERLAP 0",
    "N_PIG 1, N_TOTAL 1, NID_BG 15; 27: Q_DIR 0, D_STATIC 0, V_STATIC 3, Q_FRONT 1, N_ITER 0, N_ITER 1, D_STATIC 5, "
    "V_STATIC 9, Q_FRONT 0, N_ITER 0",
)

# What the modes and the driver's actions turn on.
OPEN = ("V_LOA 0, T_LOA 1023, N_ITER 0, L_ENDSECTION {}, Q_SECTIONTIMER 0, Q_ENDTIMER 0, Q_DANGERPOINT 0, Q_OVERLAP 0; "
        "21: D_GRADIENT 0, Q_GDIR 1, G_A 0, N_ITER 0; 27: D_STATIC 0, V_STATIC {}, Q_FRONT 1, N_ITER 0, N_ITER 0")
NATIONAL = ("V_NVSHUNT {}, V_NVSTFF {}, V_NVONSIGHT {}, V_NVUNFIT {}, V_NVREL 3, D_NVROLL {}, V_NVALLOWOVTRP {}, V_NVSUPOVTRP {}, "
            "D_NVOVTRP {}, T_NVOVTRP {}, D_NVSTFF {}")

SUPERVISION = (
    # Group 20: an authority of 80 km/h over 60 m, level track, 60 km/h.
    "NID_BG 20; 12: V_MAIN 16, " + OPEN.format(60, 12),
    # Group 21: the same over 100 m, with an On Sight area of 15 km/h 20 m ahead for 20 m, to be acknowledged from 10 m before it on.
    "NID_BG 21; 12: V_MAIN 16, " + OPEN.format(100, 10)
    + "; 80: D_MAMODE 20, M_MAMODE 0, V_MAMODE 3, L_MAMODE 20, L_ACKMAMODE 10, N_ITER 0",
    # Group 22: the same with a Shunting area 30 m ahead for 10 m.
    "NID_BG 22; 12: V_MAIN 16, " + OPEN.format(100, 10)
    + "; 80: D_MAMODE 30, M_MAMODE 1, V_MAMODE 127, L_MAMODE 10, L_ACKMAMODE 15, N_ITER 0",
    # Group 23: V_MAIN 0.
    "NID_BG 23; 12: V_MAIN 0, " + OPEN.format(50, 10),
    # Level 0 at once; level 1 in 20 m, after an element for STM; level 0 in 25 m, to be acknowledged from 15 m before it on; level 2.
    "NID_BG 24; 41: D_LEVELTR 32767, M_LEVELTR 0, L_ACKLEVELTR 10, N_ITER 0",
    "NID_BG 25; 41: D_LEVELTR 20, M_LEVELTR 1, NID_STM 5, L_ACKLEVELTR 3, N_ITER 1, M_LEVELTR 2, L_ACKLEVELTR 5",
    "NID_BG 26; 41: D_LEVELTR 25, M_LEVELTR 0, L_ACKLEVELTR 15, N_ITER 0",
    "NID_BG 27; 41: D_LEVELTR 5, M_LEVELTR 3, L_ACKLEVELTR 5, N_ITER 0",
    # Group 28 announces group 29, 15 m ahead, to 3 m, with the reaction trip, and group 30, 10 m after it, with a service brake.
    "NID_BG 28; 5: D_LINK 15, Q_NEWCOUNTRY 0, NID_BG 29, Q_LINKORIENTATION 1, Q_LINKREACTION 0, Q_LOCACC 3, N_ITER 1, "
    "D_LINK 10, Q_NEWCOUNTRY 0, NID_BG 30, Q_LINKORIENTATION 1, Q_LINKREACTION 1, Q_LOCACC 4",
    "NID_BG 29",
    "M_MCOUNT 254, NID_BG 29",
    "NID_BG 30",
    "M_MCOUNT 254, NID_BG 30",
    # Group 28 announces three groups with no reaction, 3 m, 2 m and 2 m ahead, to 1 m.
    "NID_BG 28; 5: D_LINK 3, Q_NEWCOUNTRY 0, NID_BG 31, Q_LINKORIENTATION 1, Q_LINKREACTION 2, Q_LOCACC 1, N_ITER 2, "
    "D_LINK 2, Q_NEWCOUNTRY 0, NID_BG 32, Q_LINKORIENTATION 0, Q_LINKREACTION 2, Q_LOCACC 1, "
    "D_LINK 2, Q_NEWCOUNTRY 1, NID_C 2, NID_BG 33, Q_LINKORIENTATION 1, Q_LINKREACTION 2, Q_LOCACC 1",
    # National values at once: Override is allowed up to 40 km/h, for 30 m and 5 s; 40 m in Staff Responsible; 1 m to roll.
    "NID_BG 31; 3: D_VALIDNV 32767, N_ITER 0, " + NATIONAL.format(4, 5, 3, 12, 1, 8, 4, 30, 5, 40),
    # In 10 m: Override up to 20 km/h without an end in time; 5 m to roll.
    "NID_BG 32; 3: D_VALIDNV 10, N_ITER 1, NID_C 3, " + NATIONAL.format(5, 9, 4, 10, 5, 4, 5, 100, 255, 32767),
    # At once: Override never lasts, and Staff Responsible neither.
    "NID_BG 34; 3: D_VALIDNV 32767, N_ITER 0, " + NATIONAL.format(6, 8, 6, 20, 2, 10, 6, 0, 0, 5),
    # Two areas: On Sight 5 m ahead for 10 m, and Shunting of no length 10 m beyond its start.
    "NID_BG 33; 80: D_MAMODE 5, M_MAMODE 0, V_MAMODE 4, L_MAMODE 10, L_ACKMAMODE 3, N_ITER 1, D_MAMODE 10, M_MAMODE 1, "
    "V_MAMODE 2, L_MAMODE 0, L_ACKMAMODE 8",
    # Group 35: an On Sight area without an end, of the national speed, with an authority over 80 m.
    "NID_BG 35; 12: V_MAIN 20, " + OPEN.format(80, 14)
    + "; 80: D_MAMODE 0, M_MAMODE 0, V_MAMODE 127, L_MAMODE 32767, L_ACKMAMODE 0, N_ITER 0",
    # Group 36: an authority over 30 m with 15 km/h at its end for 6 s, and an end timer of 4 s from 25 m before the end on; a section
    # timer of 9 s that stops after 20 m.
    "NID_BG 36; 12: V_MAIN 12, V_LOA 3, T_LOA 6, N_ITER 0, L_ENDSECTION 30, Q_SECTIONTIMER 1, T_SECTIONTIMER 9, "
    "D_SECTIONTIMERSTOPLOC 20, Q_ENDTIMER 1, T_ENDTIMER 4, D_ENDTIMERSTARTLOC 25, Q_DANGERPOINT 1, D_DP 5, V_RELEASEDP 127, "
    "Q_OVERLAP 0; 21: D_GRADIENT 0, Q_GDIR 0, G_A 10, N_ITER 0; 27: D_STATIC 0, V_STATIC 10, Q_FRONT 0, N_ITER 0, N_ITER 0",
    # Group 37, not linked, with counter 254.
    "M_MCOUNT 254, NID_BG 37, Q_LINK 0",
    # Group 38, not linked: 50 km/h over 40 m.
    "NID_BG 38, Q_LINK 0; 12: V_MAIN 10, " + OPEN.format(40, 16),
    # Two balises: an authority over 50 m in the nominal direction, level 1 at once in the reverse one, level 0 in both in 30 m.
    "N_TOTAL 1, NID_BG 39; 12: Q_DIR 1, V_MAIN 14, " + OPEN.format(50, 13) + "; 41: D_LEVELTR 30, M_LEVELTR 0, L_ACKLEVELTR 20, N_ITER 0",
    "N_PIG 1, N_TOTAL 1, NID_BG 39; 41: Q_DIR 0, D_LEVELTR 32767, M_LEVELTR 2, L_ACKLEVELTR 0, N_ITER 0",
    # Group 40: level 1 at once, an authority of 80 km/h over 70 m.
    "NID_BG 40; 12: V_MAIN 16, " + OPEN.format(70, 12) + "; 41: D_LEVELTR 32767, M_LEVELTR 2, L_ACKLEVELTR 0, N_ITER 0",
    # Group 41: level 1 in 10 m.
    "NID_BG 41; 41: D_LEVELTR 10, M_LEVELTR 2, L_ACKLEVELTR 0, N_ITER 0",
    # Group 42: the same as group 40, with an On Sight area of 20 km/h for 15 m.
    "NID_BG 42; 12: V_MAIN 16, " + OPEN.format(70, 12) + "; 41: D_LEVELTR 32767, M_LEVELTR 2, L_ACKLEVELTR 0, N_ITER 0; "
    "80: D_MAMODE 0, M_MAMODE 0, V_MAMODE 4, L_MAMODE 15, L_ACKMAMODE 5, N_ITER 0",
    # Group 43: an authority over 80 m, an On Sight area for 15 m, and a Shunting area after it.
    "NID_BG 43; 12: V_MAIN 20, " + OPEN.format(80, 14) + "; 80: D_MAMODE 0, M_MAMODE 0, V_MAMODE 5, L_MAMODE 15, L_ACKMAMODE 5, "
    "N_ITER 1, D_MAMODE 15, M_MAMODE 1, V_MAMODE 3, L_MAMODE 20, L_ACKMAMODE 2",
)

LEVEL_0 = "NID_BG 24; 41: D_LEVELTR 32767, M_LEVELTR 0, L_ACKLEVELTR 10, N_ITER 0"
