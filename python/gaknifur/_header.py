"""What c/include/etcs.h, etcs_unit.h, etcs_image.h and etcs_guard.h declare, for ctypes. Written by `tools/dev/bindings`."""
import enum
from ctypes import POINTER, Structure, c_char_p, c_int64, c_uint8, c_uint16, c_uint32, c_uint64, c_void_p

TELEGRAM_BYTES = 104
ABI = 6
VERSION_NUMBER = 1000
VERSION_BYTES = 32
BUILD_INFO_BYTES = 160
SECTOR = 512
OUTPUTS = 8
REQUEST_BYTES = 8192
STACK_BYTES = 16384
STACK_BYTES_PREVIEW = 106496
STACK_BYTES_UNUSED = 36864
MOVEMENT_CM_MOST = 10000
SPEED_M_PER_H_MOST = 600000
IDENTITY_BYTES = 16
IDENTITY_FIRST = 0x20
IDENTITY_LAST = 0x7E
RUNNING_NUMBER_MOST = 99999999
LENGTH_CM_MOST = 409500
DECELERATION_CM_PER_S2_MOST = 300
REACTION_MS_MOST = 10000
CATEGORY_NONE = 15
BRAKE_CAUSES = 10
ENDLESS = 0xFFFFFFFF
ACTIONS = 16
STACK_BYTES_IMAGE = 24576
STACK_BYTES_REPLAY = 70656
STACK_BYTES_WHY = 176128
PAYLOAD_BYTES = 104
NO_PACKET = 256


class Fault(enum.IntEnum):
    """Why bytes contain no telegram. TOO_LONG comes before all others; otherwise the first fault in the order of the
    bits is returned."""

    OK = 0
    TRUNCATED = 1
    WRONG_LENGTH = 2
    SPARE = 3
    OUT_OF_RANGE = 4
    WRONG_VERSION = 5
    NOT_UPLINK = 6
    NOT_BALISE = 7
    NO_END = 8
    TOO_LONG = 9


class Proof(enum.IntEnum):
    """Whether the code of a library was proved."""

    UNKNOWN = 0
    UNPROVED = 1
    PROVED = 2


class Status(enum.IntEnum):
    """The results of calls. docs/reference/refusals.md explains each."""

    OK = 0
    OPEN_DEVICE_FAULT = 1
    OPEN_NOT_FORMATTED = 2
    OPEN_DAMAGED = 3
    OPEN_NO_MEMORY = 4
    OPEN_WORN_OUT = 6
    PENDING_FULL = 10
    CLOCK_BACK = 11
    NO_MEMORY = 12
    INPUT_FAILED = 13
    FAILED = 21
    REQUESTS_OWED = 22
    WORN_OUT = 23
    IMAGE_NOT_FORMATTED = 31
    IMAGE_DAMAGED = 32
    NO_SUCH_SLOT = 35
    NO_SUCH_BLOCK = 36
    NO_SUCH_RECORD = 37
    END = 38
    NOT_REPLAYED = 39
    BAD_SLOTS = 41
    NOT_RELEASED = 247
    NO_SUCH_REQUEST = 249
    NOT_OPEN = 250
    IS_OPEN = 251
    NO_ROOM = 252
    NULL_POINTER = 253
    OTHER_ABI = 254
    OUT_OF_RANGE = 255


class StatusKind(enum.IntEnum):
    """The kind of a result (etcs_status_classify)."""

    OK = 0
    MISTAKE = 1
    FAULT = 2


class Source(enum.IntEnum):
    """The source of a call's values."""

    DRIVER = 0
    EQUIPMENT = 1


class Cold(enum.IntEnum):
    """Whether the train was moved while the unit was without power."""

    UNKNOWN = 0
    MOVED = 1
    NOT_MOVED = 2


class Action(enum.IntEnum):
    """The driver's actions that have no values (SUBSET-026, 5)."""

    CHOOSE_LEVEL_0 = 1
    CHOOSE_LEVEL_1 = 2
    CONFIRM_IDENTITY = 3
    CONFIRM_RUNNING_NUMBER = 4
    CONFIRM_TRAIN_DATA = 5
    CONFIRM_LEVEL = 6
    START = 7
    CHOOSE_SHUNTING = 8
    LEAVE_SHUNTING = 9
    OVERRIDE = 10
    ACKNOWLEDGE_TRIP = 11
    ACKNOWLEDGE_ON_SIGHT = 12
    ACKNOWLEDGE_SHUNTING = 13
    ACKNOWLEDGE_LEVEL_0 = 14
    CLOSE_DESK = 15


class Mode(enum.IntEnum):
    """M_MODE (SUBSET-026, 7.5.1)."""

    FULL_SUPERVISION = 0
    ON_SIGHT = 1
    STAFF_RESPONSIBLE = 2
    SHUNTING = 3
    UNFITTED = 4
    STAND_BY = 6
    TRIP = 7
    POST_TRIP = 8
    SYSTEM_FAILURE = 9


class Level(enum.IntEnum):
    """The level of the train."""

    LEVEL_0 = 0
    LEVEL_1 = 1
    INVALID = 255


class Brake(enum.IntEnum):
    """The brake command."""

    NONE = 0
    SERVICE = 1
    EMERGENCY = 2


class Indication(enum.IntFlag):
    """Indications to the driver; etcs_unit_output has their sum."""

    ON_SIGHT = 1
    SHUNTING = 2
    LEVEL_0 = 4
    TRIP = 8
    OVERRIDDEN = 16
    NOT_REVALIDATED = 32
    OVERSPEED = 64


class RequestKind(enum.IntEnum):
    """The kinds of requests for the medium."""

    WRITE = 1
    SYNC = 2
    READ = 3


class BrakeCause(enum.IntEnum):
    """Why a brake is commanded: the rows of the brake table, by their index in etcs_unit_why and etcs_why
    (docs/explain/brakes.md, also for how each ends). The first six command the emergency brake."""

    NOT_REVALIDATED = 0
    IN_TRIP = 1
    IN_SYSTEM_FAILURE = 2
    OWES_TRIP = 3
    FAR_TOO_FAST = 4
    ROLLED_TOO_FAR = 5
    SERVICE_BRAKE_REQUESTED = 6
    TOO_FAST = 7
    MUST_STAND = 8
    OWES_TOO_LONG = 9


class LimitCause(enum.IntEnum):
    """What decides a limit (docs/explain/brakes.md)."""

    NO_SPEED = 1
    NO_TRAIN_DATA = 2
    NATIONAL_STAFF_RESPONSIBLE = 3
    NATIONAL_OVERRIDE = 4
    NATIONAL_SHUNTING = 5
    NATIONAL_UNFITTED = 6
    TRAIN_MAXIMUM = 7
    MAIN_SPEED = 8
    END_SPEED = 9
    STATIC_SPEED = 10
    RESTRICTION = 11
    MODE_AREA = 12
    STATIC_SPEED_AHEAD = 13
    UNKNOWN_SPEED_AHEAD = 14
    RESTRICTION_AHEAD = 15
    MODE_AREA_AHEAD = 16
    END_OF_AUTHORITY = 17
    SUPERVISED_LOCATION = 18
    RELEASE_SPEED = 19
    NATIONAL_RELEASE_SPEED = 20


class Acknowledgement(enum.IntEnum):
    """Whether the unit waits for an acknowledgement by the driver (SUBSET-026, 5.7, 5.9, 5.10)."""

    NONE = 0
    ASKED = 1
    OWED = 2


class Datum(enum.IntEnum):
    """The status of a datum (SUBSET-026, 4.10)."""

    UNKNOWN = 0
    VALID = 1
    INVALID = 2


class Refusal(enum.IntEnum):
    """Why an action of the driver isn't accepted: its first condition that fails, in this order."""

    NONE = 0
    OTHER_MODE = 1
    NOT_AT_STANDSTILL = 2
    TOO_FAST = 3
    NOTHING_TO_CONFIRM = 4
    IDENTITY_NOT_VALID = 5
    LEVEL_NOT_VALID = 6
    TRIP_OUTSTANDING = 7
    TRAIN_DATA_NOT_VALID = 8
    NO_TRIP = 9
    NOT_REQUESTED = 10


class GroupOutcome(enum.IntEnum):
    """The outcome of a balise group (SUBSET-026, 3.4.4 and 3.16.2). The first three are accepted: their packets are
    used."""

    ANNOUNCED = 1
    NOT_LINKED = 2
    LINKING_UNUSED = 3
    NOT_ANNOUNCED = 4
    WRONG_WAY = 5
    TOO_EARLY = 6
    BALISE_MISSING = 7
    COUNTERS_DIFFER = 8
    TELEGRAMS_DIFFER = 9


class Reaction(enum.IntEnum):
    """The reaction of linking (Q_LINKREACTION)."""

    TRIP = 0
    SERVICE = 1
    NONE = 2


class TelegramOutcome(enum.IntEnum):
    """The outcome of the bytes of a balise, apart from the groups that they close (SUBSET-026, 3.4)."""

    COUNTS = 1
    GROUP_CLOSED = 2
    REPEATED = 3
    REFUSED = 4


class Direction(enum.IntEnum):
    """The direction in which a train passes a group."""

    REVERSE = 0
    NOMINAL = 1
    NOT_KNOWN = 2


class UnusedReason(enum.IntEnum):
    """Why a unit doesn't use a packet of a telegram."""

    NOT_KNOWN = 1
    INFILL = 2
    IN_MODE = 3
    OTHER_DIRECTION = 4
    REFUSED = 5


class SlotState(enum.IntEnum):
    """The state of a slot (docs/reference/format.md)."""

    EMPTY = 0
    BLOCK = 1
    UNREADABLE = 2
    MISPLACED = 3
    FOREIGN = 4
    UNWRITTEN = 5
    REPLACED = 6
    REMAINS = 7


class Kind(enum.IntEnum):
    """The kind of an event."""

    POWER_UP = 1
    TELEGRAM = 2
    ODOMETER = 3
    CLOCK = 4
    DRIVER = 5


class Verdict(enum.IntEnum):
    """The result of replaying some events of one life through the kernel, or of comparing a head."""

    AGREES = 1
    RECORD_DIFFERS = 2
    HEAD_DIFFERS = 3
    BEFORE_OLDEST = 4
    AFTER_GAP = 5
    WITHIN_BLOCK = 6
    AFTER_DIFFERENCE = 7


class RecordField(enum.IntEnum):
    """The first field of a record that differs, in the order of comparison."""

    EVENT = 1
    WORD = 2
    MOMENT = 3
    MODE = 4
    LEVEL = 5
    BRAKE = 6
    INDICATIONS = 7
    PLACE = 8
    FRONT = 9
    UNCERTAINTY = 10
    LIMIT = 11


class KeptField(enum.IntEnum):
    """The first field of a head that differs, in the order of comparison."""

    EVENTS = 1
    LIVES = 2
    TRIP = 3
    IDENTITY = 4
    RUNNING_NUMBER = 5
    TRAIN = 6
    LEVEL = 7
    POSITION = 8
    NATIONAL = 9
    COUNTRIES = 10


class TripCause(enum.IntEnum):
    """Why Trip was entered (docs/explain/brakes.md)."""

    UNKNOWN = 0
    END_PASSED = 1
    LINKING = 2
    STOP = 3
    STAFF_DISTANCE = 4
    LEVEL = 5


class GuardPolicy(enum.IntEnum):
    """What the guard does with demands. You choose it."""

    STRICT = 1
    WARN = 2


class Demanded(enum.IntEnum):
    """What a telegram demands of the equipment around the unit."""

    TRIP = 1
    SERVICE_BRAKE = 2
    NOT_OBEYED = 3
    UNREADABLE = 4


class Finding(enum.IntEnum):
    """The rows of the table of demands (crates/track_guard/specs/Table.antt)."""

    STOP_IN_STAFF_RESPONSIBLE = 1
    DANGER_FOR_SHUNTING = 2
    SHUNTING_BALISES = 3
    STOP_SHUNTING = 4
    REPOSITIONING = 5
    CONDITIONAL_LEVEL = 6
    AXLE_LOAD_SPEEDS = 7
    ROUTE_SUITABILITY = 8
    SLIPPERY_RAIL = 9
    ENDLESS_END_SPEED = 10
    GREATER_VERSION = 11
    SAME_VERSION = 12
    LESSER_VERSION = 13
    REFUSED_UNLINKED = 14
    REFUSED = 15


class Sureness(enum.IntEnum):
    """How sure it is that issue 2.3.0 says so: the authors of the table had no copy of it."""

    SURE = 1
    FAIRLY_SURE = 2
    TO_BE_LOOKED_UP = 3


class etcs_unit(Structure):
    _fields_ = [("at", c_void_p), ("is_open", c_uint64)]


class etcs_unit_output(Structure):
    _fields_ = [("event", c_uint64), ("limit_m_per_h", c_uint32), ("mode", c_uint8), ("level", c_uint8),
                ("brake", c_uint8), ("indications", c_uint8)]


class etcs_unit_request_info(Structure):
    _fields_ = [("sector", c_uint64), ("sectors", c_uint64), ("kind", c_uint64)]


class etcs_train_data(Structure):
    _fields_ = [("length_cm", c_uint32), ("maximum_m_per_h", c_uint32), ("deceleration_cm_per_s2", c_uint32),
                ("reaction_ms", c_uint32), ("category", c_uint32)]


class etcs_unit_state_info(Structure):
    _fields_ = [("last", etcs_unit_output), ("requests", c_uint64), ("done", c_uint64), ("held", c_uint64),
                ("has_failed", c_uint64), ("pending", c_uint64), ("moment_ms", c_uint64), ("front_cm", c_int64),
                ("uncertainty_cm", c_uint64)]


class etcs_unit_why_info(Structure):
    _fields_ = [("output", etcs_unit_output), ("backward_cm", c_uint64), ("allowed_backward_cm", c_uint64),
                ("limit_cause_cm", c_int64), ("restriction", c_uint64), ("target_distance_cm", c_uint64),
                ("on_sight_ms", c_uint64), ("shunting_ms", c_uint64), ("level_0_ms", c_uint64),
                ("override_ms", c_uint64), ("override_cm", c_uint64), ("service_brake_m_per_h", c_uint32),
                ("emergency_brake_m_per_h", c_uint32), ("speed_m_per_h", c_uint32), ("limit_cause_m_per_h", c_uint32),
                ("target_m_per_h", c_uint32), ("release_m_per_h", c_uint32), ("holds", c_uint8 * 10),
                ("limit_cause", c_uint8), ("has_place", c_uint8), ("has_restriction", c_uint8), ("has_target", c_uint8),
                ("has_release", c_uint8), ("on_sight", c_uint8), ("shunting", c_uint8), ("level_0", c_uint8),
                ("has_override", c_uint8), ("override_ends", c_uint8), ("reserved", c_uint8 * 4)]


class etcs_national(Structure):
    _fields_ = [("shunting_m_per_h", c_uint32), ("staff_responsible_m_per_h", c_uint32), ("on_sight_m_per_h", c_uint32),
                ("unfitted_m_per_h", c_uint32), ("release_m_per_h", c_uint32), ("roll_cm", c_uint32),
                ("override_allowed_m_per_h", c_uint32), ("override_m_per_h", c_uint32),
                ("override_distance_cm", c_uint32), ("override_time_ms", c_uint32),
                ("staff_responsible_distance_cm", c_uint32), ("count", c_uint32), ("countries", c_uint16 * 32)]


class etcs_kept(Structure):
    _fields_ = [("distance_cm", c_int64), ("train", etcs_train_data), ("running_number", c_uint32),
                ("country", c_uint32), ("group", c_uint32), ("identity", c_uint8 * 16), ("identity_len", c_uint8),
                ("has_running_number", c_uint8), ("has_train", c_uint8), ("level_status", c_uint8), ("level", c_uint8),
                ("position_status", c_uint8), ("trip_outstanding", c_uint8), ("reserved", c_uint8),
                ("national", etcs_national)]


class etcs_unit_driver_info(Structure):
    _fields_ = [("kept", etcs_kept), ("speed_m_per_h", c_uint32), ("mode", c_uint8), ("accepts", c_uint8 * 16),
                ("accepts_identity", c_uint8), ("accepts_running_number", c_uint8), ("accepts_train_data", c_uint8),
                ("is_revalidated", c_uint8), ("identity_status", c_uint8), ("running_number_status", c_uint8),
                ("train_status", c_uint8), ("gave_identity", c_uint8), ("gave_level", c_uint8), ("gave_train", c_uint8),
                ("has_left", c_uint8)]


class etcs_unit_refusals_info(Structure):
    _fields_ = [("actions", c_uint8 * 16), ("identity", c_uint8), ("running_number", c_uint8), ("train_data", c_uint8)]


class etcs_unit_group(Structure):
    _fields_ = [("country", c_uint32), ("group", c_uint32), ("outcome", c_uint8), ("direction", c_uint8),
                ("reaction", c_uint8), ("has_announcement", c_uint8), ("announcement", c_uint8),
                ("reserved", c_uint8 * 3)]


class etcs_unit_preview_info(Structure):
    _fields_ = [("groups", etcs_unit_group * 2), ("count", c_uint8), ("telegram", c_uint8), ("fault", c_uint8),
                ("reserved", c_uint8)]


class etcs_packet_unused(Structure):
    _fields_ = [("start", c_uint64), ("bits", c_uint64), ("number", c_uint32), ("why", c_uint32)]


class etcs_image(Structure):
    _fields_ = [("sectors", c_uint64), ("slots", c_uint64), ("whole", c_uint64), ("newest", c_uint64)]


class etcs_slot(Structure):
    _fields_ = [("number", c_uint64), ("fault_at", c_uint64), ("state", c_uint32), ("is_sound", c_uint32),
                ("has_fault", c_uint32), ("fault_record", c_uint32)]


class etcs_slot_start(Structure):
    _fields_ = [("number", c_uint64), ("is_closed", c_uint32), ("reserved", c_uint32)]


class etcs_block(Structure):
    _fields_ = [("number", c_uint64), ("first_event", c_uint64), ("events", c_uint64), ("lives", c_uint32),
                ("format", c_uint8), ("records", c_uint8), ("reserved", c_uint16), ("kept", etcs_kept)]


class etcs_record(Structure):
    _fields_ = [("event", c_uint64), ("block", c_uint64), ("moment_ms", c_uint64), ("front_cm", c_int64),
                ("uncertainty_cm", c_uint64), ("limit_m_per_h", c_uint32), ("life", c_uint32), ("format", c_uint8),
                ("kind", c_uint8), ("mode", c_uint8), ("level", c_uint8), ("brake", c_uint8), ("indications", c_uint8),
                ("has_place", c_uint8), ("payload_len", c_uint8), ("payload", c_uint8 * 104)]


class etcs_journal(Structure):
    _fields_ = [("block", c_uint64), ("last", c_uint64), ("index", c_uint64)]


class etcs_replay(Structure):
    _fields_ = [("first_event", c_uint64), ("last_event", c_uint64), ("block", c_uint64), ("event", c_uint64),
                ("life", c_uint32), ("verdict", c_uint32), ("field", c_uint32), ("reserved", c_uint32),
                ("journal", etcs_record), ("kernel", etcs_record), ("journal_kept", etcs_kept),
                ("kernel_kept", etcs_kept)]


class etcs_why(Structure):
    _fields_ = [("event", c_uint64), ("since", c_uint64 * 10), ("trip_event", c_uint64), ("backward_cm", c_uint64),
                ("allowed_backward_cm", c_uint64), ("limit_cause_cm", c_int64), ("restriction", c_uint64),
                ("limit_m_per_h", c_uint32), ("speed_m_per_h", c_uint32), ("limit_cause_m_per_h", c_uint32),
                ("holds", c_uint8 * 10), ("brake", c_uint8), ("trip_cause", c_uint8), ("limit_cause", c_uint8),
                ("has_place", c_uint8), ("has_restriction", c_uint8), ("reserved", c_uint8 * 5)]


class etcs_situation(Structure):
    _fields_ = [("mode", c_uint32), ("direction", c_uint32), ("overridden", c_uint32)]


class etcs_demand(Structure):
    _fields_ = [("demanded", c_uint32), ("finding", c_uint32), ("packet", c_uint32), ("start", c_uint32),
                ("bits", c_uint32), ("fault", c_uint32), ("chapter", c_uint32), ("section", c_uint32),
                ("clause", c_uint32), ("sureness", c_uint32)]


class etcs_guard(Structure):
    _fields_ = [("policy", c_uint32), ("brake", c_uint32), ("has_heard", c_uint32)]


CALLS: dict[str, tuple[object, ...]] = {
    "etcs_decode": (c_char_p, c_uint64),
    "etcs_packet_count": (c_char_p, c_uint64),
    "etcs_version_": (c_char_p, c_uint64, POINTER(c_uint32)),
    "etcs_build_info_": (c_char_p, c_uint64, POINTER(c_uint32)),
    "etcs_unit_begin_": (POINTER(etcs_unit), c_uint64, c_uint32, c_uint32),
    "etcs_unit_telegram_": (POINTER(etcs_unit), c_char_p, c_uint64),
    "etcs_unit_odometer_": (POINTER(etcs_unit), c_int64, c_uint32),
    "etcs_unit_clock_": (POINTER(etcs_unit), c_uint64),
    "etcs_unit_action_": (POINTER(etcs_unit), c_uint32),
    "etcs_unit_identity_": (POINTER(etcs_unit), c_char_p, c_uint64),
    "etcs_unit_running_number_": (POINTER(etcs_unit), c_uint32),
    "etcs_unit_train_data_": (POINTER(etcs_unit), POINTER(etcs_train_data)),
    "etcs_unit_provide_": (POINTER(etcs_unit), c_uint64, c_char_p, c_uint64),
    "etcs_unit_prepare_": (POINTER(etcs_unit),),
    "etcs_unit_request_": (POINTER(etcs_unit), POINTER(etcs_unit_request_info), c_char_p, c_uint64),
    "etcs_unit_done_": (POINTER(etcs_unit),),
    "etcs_unit_fail_": (POINTER(etcs_unit),),
    "etcs_unit_release_": (POINTER(etcs_unit), POINTER(etcs_unit_output), c_uint64, POINTER(c_uint32)),
    "etcs_unit_state_": (POINTER(etcs_unit), POINTER(etcs_unit_state_info)),
    "etcs_unit_why_": (POINTER(etcs_unit), POINTER(etcs_unit_why_info)),
    "etcs_unit_driver_": (POINTER(etcs_unit), POINTER(etcs_unit_driver_info)),
    "etcs_unit_refusals_": (POINTER(etcs_unit), POINTER(etcs_unit_refusals_info)),
    "etcs_unit_preview_telegram_": (POINTER(etcs_unit), c_char_p, c_uint64, POINTER(etcs_unit_preview_info)),
    "etcs_unit_preview_odometer_": (POINTER(etcs_unit), c_int64, c_uint32, POINTER(etcs_unit_preview_info)),
    "etcs_unit_close_": (POINTER(etcs_unit),),
    "etcs_unit_format_request_": (c_uint32, c_uint32, POINTER(etcs_unit_request_info), c_char_p, c_uint64),
    "etcs_telegram_unused_": (c_char_p, c_uint64, c_uint32, c_uint32, c_uint32, POINTER(etcs_packet_unused)),
    "etcs_abi": (),
    "etcs_build_proof": (),
    "etcs_image_facts_": (c_char_p, c_uint64, c_uint32, POINTER(etcs_image)),
    "etcs_image_slot_": (c_char_p, c_uint64, c_uint32, c_uint64, c_uint64, POINTER(etcs_slot)),
    "etcs_image_slot_start_": (c_char_p, c_uint64, c_uint32, c_uint64, c_uint64, POINTER(etcs_slot_start)),
    "etcs_image_block_": (c_char_p, c_uint64, c_uint32, c_uint64, POINTER(etcs_block)),
    "etcs_image_record_": (c_char_p, c_uint64, c_uint32, c_uint64, c_uint32, POINTER(etcs_record)),
    "etcs_journal_open_": (c_char_p, c_uint64, c_uint32, POINTER(etcs_journal)),
    "etcs_journal_next_": (c_char_p, c_uint64, POINTER(etcs_journal), POINTER(etcs_record)),
    "etcs_image_replay_": (c_char_p, c_uint64, c_uint32, POINTER(etcs_journal), POINTER(etcs_replay)),
    "etcs_image_why_": (c_char_p, c_uint64, c_uint32, c_uint64, c_uint64, POINTER(etcs_why)),
    "etcs_guard_begin_": (POINTER(etcs_guard), c_uint32),
    "etcs_guard_hear_": (POINTER(etcs_guard), c_char_p, c_uint64, POINTER(etcs_situation), POINTER(c_uint32)),
    "etcs_guard_demand_": (c_char_p, c_uint64, POINTER(etcs_situation), c_uint32, POINTER(etcs_demand)),
    "etcs_guard_acknowledge_": (POINTER(etcs_guard), c_uint32),
    "etcs_guard_command_": (POINTER(etcs_guard), c_uint32, POINTER(c_uint32)),
}
