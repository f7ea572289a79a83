/**
 * @file
 * Reading an image: the bytes of a journal of the onboard unit (ERTMS/ETCS level 1, UNISIG SUBSET-026 issue 2.3.0), as
 * `etcs run` and etcs_file.h leave them, for C, C++ and every language that can call C.
 *
 * Link with libetcs_unit.a or libetcs_unit.so, which `tools/library PREFIX` builds and installs with this header.
 *
 * You pass the image as bytes: a file that was read or mapped, or a copy of the unit's medium. The library keeps nothing,
 * so there is no handle; any thread may call, and several at once on the same bytes. No call writes to the image. Only
 * etcs_image_replay and etcs_image_why allocate memory, since they run a life through the kernel again: as much as a unit
 * for its track (docs/explain/integration.md has the bound), and they free it before they return.
 *
 *     etcs_journal journal;
 *     etcs_record record;
 *     uint32_t status = etcs_journal_open(image, size, &journal);
 *
 *     while (status == ETCS_UNIT_OK && (status = etcs_journal_next(image, size, &journal, &record)) == ETCS_UNIT_OK)
 *         print(&record);
 *     if (status != ETCS_UNIT_END)
 *         complain(etcs_status_name(status));
 *
 * Every call returns, whatever bytes and numbers you pass, with a number of enum etcs_unit_status. A call writes only if it
 * returns ETCS_UNIT_OK, except that etcs_journal_next and etcs_image_replay move the journal past a block that can't be read.
 * For a null pointer it returns ETCS_UNIT_NULL_POINTER. No call can test the following; you must ensure it:
 *
 * - `size` bytes from `image` on may be read, and nobody writes to them while a call runs, not even that call: its outputs
 *   don't overlap them;
 * - each other pointer is valid for what it points to, and nobody else writes there while the call runs;
 * - each call has its stack: ETCS_STACK_BYTES, unless its comment names another number (etcs_image_why needs the most). If the
 *   stack ends within a call, the program crashes, or other memory is overwritten, whatever the image is.
 *
 * docs/reference/format.md defines the bytes. Sectors, slots, events and the records of a block are counted from 0, blocks
 * from 1. Places are in centimetres, speeds in metres per hour, moments in milliseconds. An image may be cut off, or
 * damaged anywhere; the calls report what it still contains.
 */
#ifndef ETCS_IMAGE_H
#define ETCS_IMAGE_H

#include "etcs_unit.h"

#ifdef __cplusplus
extern "C" {
#endif

/** The greatest stack of etcs_image_slot, etcs_image_block, etcs_image_record and etcs_journal_next, in bytes (ETCS_STACK_BYTES
 * says how far that is known). */
#define ETCS_STACK_BYTES_IMAGE 24576

/** The stack of etcs_image_replay. */
#define ETCS_STACK_BYTES_REPLAY 70656

/** The stack of etcs_image_why. */
#define ETCS_STACK_BYTES_WHY 176128

/** The greatest number of bytes of a record's payload. */
#define ETCS_PAYLOAD_BYTES 104

/** The state of a slot (docs/reference/format.md). */
enum etcs_slot_state {
    ETCS_SLOT_EMPTY = 0,      /**< all its bytes are zero */
    ETCS_SLOT_BLOCK = 1,      /**< its gate is open, and head and records are the block with this number, which belongs there */
    ETCS_SLOT_UNREADABLE = 2, /**< its gate is open and its head begins with this number, but head and records are no block */
    ETCS_SLOT_MISPLACED = 3,  /**< its gate is open, and its head begins with this number, which belongs to another slot */
    ETCS_SLOT_FOREIGN = 4,    /**< its gate is open, and its head begins with no mark and number */
    ETCS_SLOT_UNWRITTEN = 5,  /**< its gate is closed, and after it is the block after the newest: none of its outputs was released */
    ETCS_SLOT_REPLACED = 6,   /**< its gate is closed, and after it is another block of this slot: one that was being replaced */
    ETCS_SLOT_REMAINS = 7     /**< its gate is closed, and after it are neither zeros nor a block of this slot */
};

/** The kind of an event. */
enum etcs_kind { ETCS_POWER_UP = 1, ETCS_TELEGRAM = 2, ETCS_ODOMETER = 3, ETCS_CLOCK = 4, ETCS_DRIVER = 5 };

/** The result of replaying some events of one life through the kernel, or of comparing a head. */
enum etcs_verdict {
    ETCS_VERDICT_AGREES = 1,           /**< each of these records is what this kernel computes */
    ETCS_VERDICT_RECORD_DIFFERS = 2,   /**< this record differs: the rest of its life isn't replayed */
    ETCS_VERDICT_HEAD_DIFFERS = 3,     /**< the head of a block differs: the replay goes on after it */
    ETCS_VERDICT_BEFORE_OLDEST = 4,    /**< not replayed: the power-up of their life, or the head before it, is no longer in a slot */
    ETCS_VERDICT_AFTER_GAP = 5,       /**< not replayed: a block before them can't be read, or events are missing before them */
    ETCS_VERDICT_WITHIN_BLOCK = 6,     /**< not replayed: their life begins within a block, after events that aren't replayed, so no head contains what was kept before it */
    ETCS_VERDICT_AFTER_DIFFERENCE = 7 /**< not replayed: they come after a record that differs */
};

/** The first field of a record that differs, in the order of comparison. */
enum etcs_record_field {
    ETCS_RECORD_EVENT = 1,       /**< the number of the event */
    ETCS_RECORD_WORD = 2,        /**< the cold-movement value of a power-up, in a format that doesn't contain it */
    ETCS_RECORD_MOMENT = 3,      /**< its moment */
    ETCS_RECORD_MODE = 4,        /**< the mode */
    ETCS_RECORD_LEVEL = 5,       /**< the level */
    ETCS_RECORD_BRAKE = 6,       /**< the command to the brakes */
    ETCS_RECORD_INDICATIONS = 7, /**< the indications to the driver */
    ETCS_RECORD_PLACE = 8,       /**< place and limit: only one of the two contains them */
    ETCS_RECORD_FRONT = 9,       /**< the estimated front */
    ETCS_RECORD_UNCERTAINTY = 10, /**< its uncertainty */
    ETCS_RECORD_LIMIT = 11       /**< the permitted speed */
};

/** The first field of a head that differs, in the order of comparison. */
enum etcs_kept_field {
    ETCS_KEPT_EVENTS = 1,         /**< the number of events: etcs_image_block returns what the head contains */
    ETCS_KEPT_LIVES = 2,          /**< the number of lives */
    ETCS_KEPT_TRIP = 3,           /**< whether a trip is outstanding */
    ETCS_KEPT_IDENTITY = 4,       /**< the driver's identity */
    ETCS_KEPT_RUNNING_NUMBER = 5, /**< the running number */
    ETCS_KEPT_TRAIN = 6,          /**< train data */
    ETCS_KEPT_LEVEL = 7,          /**< the level */
    ETCS_KEPT_POSITION = 8,       /**< the position */
    ETCS_KEPT_NATIONAL = 9,       /**< the national values */
    ETCS_KEPT_COUNTRIES = 10      /**< the countries that they are for */
};

/** Why Trip was entered (docs/explain/brakes.md). */
enum etcs_trip_cause {
    ETCS_TRIP_UNKNOWN = 0,        /**< no trip is outstanding, or it was entered in an earlier life */
    ETCS_TRIP_END_PASSED = 1,     /**< the minimum safe front was past the end of authority */
    ETCS_TRIP_LINKING = 2,        /**< linking or a balise group requested it */
    ETCS_TRIP_STOP = 3,           /**< an authority with V_MAIN 0 was used */
    ETCS_TRIP_STAFF_DISTANCE = 4, /**< the path in Staff Responsible was above D_NVSTFF */
    ETCS_TRIP_LEVEL = 5           /**< the level was 1, and the authority or the track ahead was not known */
};

/** The facts of an image: its size, and its newest block. */
typedef struct {
    uint64_t sectors; /**< the number of whole sectors */
    uint64_t slots;   /**< the number of slots in its first sector, 2 to 1,048,576 */
    uint64_t whole;   /**< the number of slots that are there with all their sectors */
    uint64_t newest;  /**< the greatest number of a valid block in these, 0 if there is none */
} etcs_image;

/** The content of a slot. */
typedef struct {
    uint64_t number;       /**< the block number that belongs to its state, 0 if there is none */
    uint64_t fault_at;     /**< the offset of the first invalid field, from the first byte after the gate; 0 if all are valid */
    uint32_t state;        /**< enum etcs_slot_state */
    uint32_t is_sound;     /**< 1 if it is as a unit leaves it: empty, or a block after its own gate; else 0 */
    uint32_t has_fault;    /**< 1 if a field is invalid, else 0 */
    uint32_t fault_record; /**< the record that contains that field, from 1; 0 if none does */
} etcs_slot;

/** The content of gate and head of a slot. */
typedef struct {
    uint64_t number;    /**< the number of the block that the slot holds as a unit wrote it, 1 to 2^40; 0 if it holds none */
    uint32_t is_closed; /**< 1 if the gate is closed, else 0 */
    uint32_t reserved;  /**< zero */
} etcs_slot_start;

/** The head of a block. */
typedef struct {
    uint64_t number;      /**< its number, from 1 */
    uint64_t first_event; /**< the number of its first event, over all lives */
    uint64_t events;      /**< the number of events up to and including its last one */
    uint32_t lives;       /**< the number of power-ups among them */
    uint8_t format;       /**< 1 to 3 */
    uint8_t records;      /**< the number of its records, 1 to 16 */
    uint16_t reserved;    /**< zero */
    etcs_kept kept;       /**< what it keeps for a power-up after it */
} etcs_block;

/** A record, with the facts that its block contains about it. */
typedef struct {
    uint64_t event;          /**< the number of the event, over all lives */
    uint64_t block;          /**< the number of its block */
    uint64_t moment_ms;      /**< the moment in its life */
    int64_t front_cm;        /**< the estimated front, from the place where its life began; 0 in format 1 */
    uint64_t uncertainty_cm; /**< its uncertainty to either side; 0 in format 1 */
    uint32_t limit_m_per_h;  /**< 0 in format 1 */
    uint32_t life;           /**< the number of its life: of power-ups up to and including its own */
    uint8_t format;          /**< the format of its block, 1 to 3 */
    uint8_t kind;            /**< enum etcs_kind */
    uint8_t mode;            /**< enum etcs_mode */
    uint8_t level;           /**< enum etcs_level */
    uint8_t brake;           /**< enum etcs_brake */
    uint8_t indications;     /**< the sum of enum etcs_indication */
    uint8_t has_place;       /**< 1 if the record contains front, uncertainty and limit: from format 2 on */
    uint8_t payload_len;     /**< the number of bytes of the payload */
    uint8_t payload[ETCS_PAYLOAD_BYTES]; /**< the data of the event (docs/reference/format.md), and zeros after them */
} etcs_record;

/** A place in a journal. Its fields are for the calls below. You may copy it, to read on from there again. */
typedef struct {
    uint64_t block; /**< the number of the block that is read */
    uint64_t last;  /**< the number of the newest one */
    uint64_t index; /**< the index of the next one of its records */
} etcs_journal;

/** A line of a replay: consecutive events of one life, or a head that differs. A field that doesn't apply is zero. */
typedef struct {
    uint64_t first_event; /**< the number of the first event; 0 for a head */
    uint64_t last_event;  /**< the number of the last event; 0 for a head */
    uint64_t block;       /**< the number of the block whose record or head differs */
    uint64_t event;       /**< the number of the event whose record differs */
    uint32_t life;        /**< the number of its life: of power-ups up to and including its own */
    uint32_t verdict;     /**< enum etcs_verdict */
    uint32_t field;       /**< enum etcs_record_field for a record, enum etcs_kept_field for a head */
    uint32_t reserved;    /**< zero */
    etcs_record journal;  /**< the record that differs, as the journal contains it */
    etcs_record kernel;   /**< the same record, as this kernel computes it */
    etcs_kept journal_kept; /**< what the head that differs contains */
    etcs_kept kernel_kept;  /**< what this kernel keeps there */
} etcs_replay;

/** The reasons for the output of an event, as this kernel computes them. */
typedef struct {
    uint64_t event;                    /**< its number */
    uint64_t since[ETCS_BRAKE_CAUSES]; /**< for each cause that holds, the first event of the unbroken run after which it has held */
    uint64_t trip_event;               /**< the event by which Trip was entered, if trip_cause isn't 0 */
    uint64_t backward_cm;              /**< the distance that the train has rolled backward since it stood */
    uint64_t allowed_backward_cm;      /**< D_NVROLL */
    int64_t limit_cause_cm;            /**< the place of the cause of the limit, or 0 */
    uint64_t restriction;              /**< NID_TSR of the restriction that is this cause, or 0 */
    uint32_t limit_m_per_h;            /**< the permitted speed after the event */
    uint32_t speed_m_per_h;            /**< the speed of the last reading */
    uint32_t limit_cause_m_per_h;      /**< for a cause ahead the speed that it requires there, else the limit */
    uint8_t holds[ETCS_BRAKE_CAUSES];  /**< 1 for each enum etcs_brake_cause that holds, else 0 */
    uint8_t brake;                     /**< enum etcs_brake */
    uint8_t trip_cause;                /**< enum etcs_trip_cause */
    uint8_t limit_cause;               /**< enum etcs_limit_cause */
    uint8_t has_place;                 /**< 1 if limit_cause_cm is a place */
    uint8_t has_restriction;           /**< 1 if restriction is a NID_TSR */
    uint8_t reserved[5];               /**< zeros */
} etcs_why;

ETCS_UNIT_ASSERT(sizeof(etcs_image) == 32u && offsetof(etcs_image, newest) == 24u);
ETCS_UNIT_ASSERT(sizeof(etcs_slot) == 32u && offsetof(etcs_slot, state) == 16u && offsetof(etcs_slot, fault_record) == 28u);
ETCS_UNIT_ASSERT(sizeof(etcs_slot_start) == 16u && offsetof(etcs_slot_start, is_closed) == 8u && offsetof(etcs_slot_start, reserved) == 12u);
ETCS_UNIT_ASSERT(sizeof(etcs_block) == 208u && offsetof(etcs_block, lives) == 24u && offsetof(etcs_block, format) == 28u && offsetof(etcs_block, kept) == 32u);
ETCS_UNIT_ASSERT(sizeof(etcs_record) == 160u && offsetof(etcs_record, limit_m_per_h) == 40u && offsetof(etcs_record, format) == 48u
                 && offsetof(etcs_record, payload_len) == 55u && offsetof(etcs_record, payload) == 56u);
ETCS_UNIT_ASSERT(sizeof(etcs_journal) == 24u && offsetof(etcs_journal, index) == 16u);
ETCS_UNIT_ASSERT(sizeof(etcs_replay) == 720u && offsetof(etcs_replay, life) == 32u && offsetof(etcs_replay, journal) == 48u
                 && offsetof(etcs_replay, kernel) == 208u && offsetof(etcs_replay, journal_kept) == 368u && offsetof(etcs_replay, kernel_kept) == 544u);
ETCS_UNIT_ASSERT(sizeof(etcs_why) == 160u && offsetof(etcs_why, trip_event) == 88u && offsetof(etcs_why, limit_m_per_h) == 128u
                 && offsetof(etcs_why, holds) == 140u && offsetof(etcs_why, brake) == 150u && offsetof(etcs_why, reserved) == 155u);

/* ---- the exports of the library: the calls below test pointers first, and then call these with the number of the interface */

uint32_t etcs_image_facts_(const uint8_t *image, uint64_t size, uint32_t abi, etcs_image *facts);
uint32_t etcs_image_slot_(const uint8_t *image, uint64_t size, uint32_t abi, uint64_t newest, uint64_t slot, etcs_slot *found);
uint32_t etcs_image_slot_start_(const uint8_t *start, uint64_t size, uint32_t abi, uint64_t slots, uint64_t slot, etcs_slot_start *found);
uint32_t etcs_image_block_(const uint8_t *image, uint64_t size, uint32_t abi, uint64_t number, etcs_block *block);
uint32_t etcs_image_record_(const uint8_t *image, uint64_t size, uint32_t abi, uint64_t number, uint32_t index, etcs_record *record);
uint32_t etcs_journal_open_(const uint8_t *image, uint64_t size, uint32_t abi, etcs_journal *journal);
uint32_t etcs_journal_next_(const uint8_t *image, uint64_t size, etcs_journal *journal, etcs_record *record);
uint32_t etcs_image_replay_(const uint8_t *image, uint64_t size, uint32_t abi, etcs_journal *journal, etcs_replay *replay);
uint32_t etcs_image_why_(const uint8_t *image, uint64_t size, uint32_t abi, uint64_t number, uint64_t event, etcs_why *why);

/* ---- names of numbers, as etcs_lab prints them (docs/reference/json.md) */

/** Returns the name of a number of enum etcs_kind; "unknown" for other numbers. */
static inline const char *etcs_kind_name(uint32_t number) {
    static const char *const names[] = {NULL, "powerup", "telegram", "odometer", "clock", "driver"};
    return etcs_name_(names, (uint32_t)(sizeof names / sizeof names[0]), number);
}

/** Returns the name of a number of enum etcs_slot_state; "unknown" for other numbers. */
static inline const char *etcs_slot_state_name(uint32_t number) {
    static const char *const names[] = {
        "empty", "block", "unreadable", "misplaced", "foreign", "unwritten", "replaced", "remains"
    };
    return etcs_name_(names, (uint32_t)(sizeof names / sizeof names[0]), number);
}

/** Returns the name of a number of enum etcs_verdict: of events that aren't replayed the reason; "unknown" for other
 * numbers. */
static inline const char *etcs_verdict_name(uint32_t number) {
    static const char *const names[] = {
        NULL, "agrees", "record_differs", "head_differs", "before_oldest_block", "gap", "within_block",
        "after_difference"
    };
    return etcs_name_(names, (uint32_t)(sizeof names / sizeof names[0]), number);
}

/** Returns the name of a number of enum etcs_record_field; "unknown" for other numbers. */
static inline const char *etcs_record_field_name(uint32_t number) {
    static const char *const names[] = {
        NULL, "event", "word", "time_ms", "mode", "level", "brake", "indications", "place", "place_cm", "uncertainty_cm",
        "limit_m_per_h"
    };
    return etcs_name_(names, (uint32_t)(sizeof names / sizeof names[0]), number);
}

/** Returns the name of a number of enum etcs_kept_field; "unknown" for other numbers. */
static inline const char *etcs_kept_field_name(uint32_t number) {
    static const char *const names[] = {
        NULL, "events", "lives", "trip_outstanding", "identity", "running_number", "train", "level", "position",
        "national_values", "countries"
    };
    return etcs_name_(names, (uint32_t)(sizeof names / sizeof names[0]), number);
}

/** Returns the name of a number of enum etcs_trip_cause; "unknown" for other numbers. */
static inline const char *etcs_trip_cause_name(uint32_t number) {
    static const char *const names[] = {"unknown", "end_passed", "linking", "stop", "staff_distance", "level"};
    return etcs_name_(names, (uint32_t)(sizeof names / sizeof names[0]), number);
}

/* ---- the calls */

/** Reads the numbers of sectors and slots of an image, and the number of its newest block. Call it first. It reads the
 * first sector, each gate, and the head after each open gate. Returns OK, OTHER_ABI, or IMAGE_NOT_FORMATTED. */
static inline uint32_t etcs_image_facts(const uint8_t *image, size_t size, etcs_image *facts) {
    return ((image != NULL) && (facts != NULL)) ? etcs_image_facts_(image, size, ETCS_UNIT_ABI, facts) : (uint32_t)ETCS_UNIT_NULL_POINTER;
}

/** Reads the content of a slot; `newest` is the number of the newest block, from etcs_image_facts. It needs up to
 * ETCS_STACK_BYTES_IMAGE of stack. Returns OK, OTHER_ABI, IMAGE_NOT_FORMATTED, OUT_OF_RANGE (a newest number above 2^40), or
 * NO_SUCH_SLOT. */
static inline uint32_t etcs_image_slot(const uint8_t *image, size_t size, uint64_t newest, uint64_t slot, etcs_slot *found) {
    return ((image != NULL) && (found != NULL)) ? etcs_image_slot_(image, size, ETCS_UNIT_ABI, newest, slot, found) : (uint32_t)ETCS_UNIT_NULL_POINTER;
}

/** Decides from gate and head of a slot which block it holds. `start` is the first two sectors of the slot, or all six;
 * `slots` is the number of slots of the ring, `slot` the index of this one. It holds a block if its gate is as a unit writes
 * it for a number from 1 to 2^40, and its head begins with the mark of a known format and with the same number, which belongs
 * to the slot. The other fields of the head and the records aren't read: etcs_image_slot reads them. For a copy of a slot
 * outside a ring pass 1 slot and slot 0, to which each number belongs. Returns OK, OTHER_ABI, OUT_OF_RANGE (fewer than 1,024
 * bytes, or more than 1,048,576 slots), or NO_SUCH_SLOT if the ring has no such slot. */
static inline uint32_t etcs_image_slot_start(const uint8_t *start, size_t size, uint64_t slots, uint64_t slot, etcs_slot_start *found) {
    return ((start != NULL) && (found != NULL)) ? etcs_image_slot_start_(start, size, ETCS_UNIT_ABI, slots, slot, found) : (uint32_t)ETCS_UNIT_NULL_POINTER;
}

/** Reads the head of the block with this number. It needs up to ETCS_STACK_BYTES_IMAGE of stack. Returns OK, OTHER_ABI,
 * IMAGE_NOT_FORMATTED, or NO_SUCH_BLOCK if its slot doesn't hold it with an open gate. */
static inline uint32_t etcs_image_block(const uint8_t *image, size_t size, uint64_t number, etcs_block *block) {
    return ((image != NULL) && (block != NULL)) ? etcs_image_block_(image, size, ETCS_UNIT_ABI, number, block) : (uint32_t)ETCS_UNIT_NULL_POINTER;
}

/** Reads a record of the block with this number. It needs up to ETCS_STACK_BYTES_IMAGE of stack. Returns OK, OTHER_ABI,
 * IMAGE_NOT_FORMATTED, NO_SUCH_BLOCK, or NO_SUCH_RECORD. */
static inline uint32_t etcs_image_record(const uint8_t *image, size_t size, uint64_t number, uint32_t index, etcs_record *record) {
    return ((image != NULL) && (record != NULL)) ? etcs_image_record_(image, size, ETCS_UNIT_ABI, number, index, record) : (uint32_t)ETCS_UNIT_NULL_POINTER;
}

/** Starts at the oldest record of the journal: of the longest unbroken run of blocks up to the newest, which `etcs journal`
 * lists. Call it before etcs_journal_next or etcs_image_replay. It reads the same bytes as etcs_image_facts. Returns OK,
 * OTHER_ABI, IMAGE_NOT_FORMATTED, or IMAGE_DAMAGED if the image doesn't have exactly 1 + 6 * slots sectors. */
static inline uint32_t etcs_journal_open(const uint8_t *image, size_t size, etcs_journal *journal) {
    return ((image != NULL) && (journal != NULL)) ? etcs_journal_open_(image, size, ETCS_UNIT_ABI, journal) : (uint32_t)ETCS_UNIT_NULL_POINTER;
}

/** Reads the next record of the journal. Call it until it returns END. It reads one slot, in the same time for every size
 * of image, and needs up to ETCS_STACK_BYTES_IMAGE of stack. Returns OK, END, NOT_OPEN (a journal of zeros), OUT_OF_RANGE (one
 * that no call left), IMAGE_NOT_FORMATTED, NO_SUCH_RECORD (one of another image), or IMAGE_DAMAGED if a block of the journal
 * can't be read: then the journal is after that block, and the next call goes on there. */
static inline uint32_t etcs_journal_next(const uint8_t *image, size_t size, etcs_journal *journal, etcs_record *record) {
    return ((image != NULL) && (journal != NULL) && (record != NULL)) ? etcs_journal_next_(image, size, journal, record) : (uint32_t)ETCS_UNIT_NULL_POINTER;
}

/** Replays the life of the record at which the journal is, from its power-up, and writes the next line of the replay:
 * consecutive events of one life with one verdict (they agree, or the reason why they aren't replayed); or the record that
 * differs; or the head of a block that differs. Call it after etcs_journal_open, until it returns END: the lines are those that
 * `etcs_lab replay` prints. After a call the journal is after the events or the head of its line. An index after the last
 * record of a block is the place of its head; only this call leaves a journal there. AGREES means that the journal is
 * consistent with this kernel, not that it is authentic (crates/replaying/README.md). The time of a call grows with the life up
 * to the end of the line. It allocates memory, and needs up to ETCS_STACK_BYTES_REPLAY of stack. Returns OK, END, NOT_OPEN,
 * OTHER_ABI, OUT_OF_RANGE, IMAGE_NOT_FORMATTED, IMAGE_DAMAGED if the next block can't be read: then the journal is at the block
 * after that one; or NO_MEMORY. With END and NO_MEMORY the journal isn't changed. */
static inline uint32_t etcs_image_replay(const uint8_t *image, size_t size, etcs_journal *journal, etcs_replay *replay) {
    return ((image != NULL) && (journal != NULL) && (replay != NULL)) ? etcs_image_replay_(image, size, ETCS_UNIT_ABI, journal, replay) : (uint32_t)ETCS_UNIT_NULL_POINTER;
}

/** Explains the output of the event with this number in the block with this number: it replays the life from its power-up to
 * the event, also from a power-up within a block if the life before it in the block can be replayed. etcs_journal_next returns
 * both numbers of each record. It allocates memory, and needs up to ETCS_STACK_BYTES_WHY of stack. Returns OK, OTHER_ABI,
 * IMAGE_NOT_FORMATTED, NO_SUCH_BLOCK, NO_SUCH_RECORD if the block has no such event, NOT_REPLAYED if it isn't known what was
 * kept before the life (etcs_image_replay returns the reason), or NO_MEMORY. */
static inline uint32_t etcs_image_why(const uint8_t *image, size_t size, uint64_t number, uint64_t event, etcs_why *why) {
    return ((image != NULL) && (why != NULL)) ? etcs_image_why_(image, size, ETCS_UNIT_ABI, number, event, why) : (uint32_t)ETCS_UNIT_NULL_POINTER;
}

#ifdef __cplusplus
}
#endif

#endif
