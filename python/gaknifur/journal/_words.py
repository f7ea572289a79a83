"""The names and texts of causes, as `etcs_lab why` prints them (crates/reasons/specs). Written by `tools/dev/bindings`."""
CAUSES = {
    "not_revalidated": ("the driver has not revalidated since the power-up", "ends when the driver has revalidated"),
    "in_trip": ("the mode is Trip", "ends when the driver acknowledges the trip at standstill"),
    "in_system_failure": ("the mode is System Failure", "ends at a power-up alone"),
    "owes_trip": ("a trip is not acknowledged", "ends when the driver acknowledges the trip at standstill"),
    "far_too_fast": ("the speed was above the limit by more than 10 km/h, and the train has not stood since",
                     "ends when the train stands"),
    "rolled_too_far": ("the train rolled backward too far since it stood",
                       "ends when the train stands, or a greater D_NVROLL comes into force"),
    "service_brake_requested": ("linking or a balise group asked for the service brake, and the train has not stood since",
                                "ends when the train stands"),
    "too_fast": ("the speed was above the limit by more than 5 km/h, and not within it since",
                 "ends when the speed is within the limit"),
    "must_stand": ("the train moves where it must stand", "ends when the train stands, or in another mode"),
    "owes_too_long": ("an acknowledgement has been owed for 5 s or longer",
                      "ends when the driver acknowledges, a mode deletes it, or a further transition begins it anew"),
}
"""The meaning of each cause of a brake, and how it ends, in the order of the brake table."""
TRIP_CAUSES = {
    "end_passed": ("the minimum safe front was past the end of authority", "4.6.3"),
    "linking": ("linking or a balise group asked for it", "3.4.4, 3.16.2"),
    "stop": ("an authority with V_MAIN 0 was used", "3.11.6"),
    "staff_distance": ("the path in Staff Responsible was above D_NVSTFF", "4.4"),
    "level": ("the level was 1, and the authority or the track ahead was not known", "5.10"),
}
"""The meaning of each cause of a trip, and its sections of SUBSET-026, in the order of enum etcs_trip_cause."""
LIMIT_CAUSES = {
    "no_speed": ("no train may run in this mode", "4.4"),
    "no_train_data": ("no train data are valid", "this project's profile"),
    "national_staff_responsible": ("the limit is the national value V_NVSTFF", "3.11.7, 3.18.2"),
    "national_override": ("an override is active, and the limit is the national value V_NVSUPOVTRP", "3.11.7, 3.18.2"),
    "national_shunting": ("the limit is the national value V_NVSHUNT", "3.11.7, 3.18.2"),
    "national_unfitted": ("the limit is the national value V_NVUNFIT", "3.11.7, 3.18.2"),
    "train_maximum": ("the limit is the greatest speed of the train", "3.11.8"),
    "main_speed": ("the limit is V_MAIN of the authority", "3.11.6"),
    "end_speed": ("the limit is V_LOA, the end of authority being reached", "3.8"),
    "static_speed": ("the limit is the static speed over the train", "3.11.3"),
    "restriction": ("the limit is that of a temporary speed restriction over the train", "3.11.5"),
    "mode_area": ("the limit is that of a mode area over the train", "3.12.4"),
    "static_speed_ahead": ("the limit is that of a static speed ahead", "3.11.3, 3.13"),
    "unknown_speed_ahead": ("the limit is that of a stop where no static speed is known", "3.11.3, 3.13"),
    "restriction_ahead": ("the limit is that of a temporary speed restriction ahead", "3.11.5, 3.13"),
    "mode_area_ahead": ("the limit is that of a mode area ahead", "3.12.4, 3.13"),
    "end_of_authority": ("the limit is that of the end of authority", "3.8, 3.13"),
    "supervised_location": ("the limit is that of the supervised location", "3.8, 3.13"),
    "release_speed": ("the limit is the release speed of the authority", "3.8, 3.13"),
    "national_release_speed": ("the limit is the national release speed V_NVREL", "3.8, 3.13"),
}
"""The meaning of each kind of what decides a limit, and its sections, in the order of enum etcs_limit_cause."""
