/**
 * @file
 * The onboard unit (ERTMS/ETCS level 1, UNISIG SUBSET-026 issue 2.3.0), for C, C++ and every language that can call C.
 *
 * Link with libetcs_unit.a or libetcs_unit.so, which `tools/library PREFIX` builds and installs with this header.
 *
 * The unit opens no file and makes no callback. Its journal is on a medium that you own. The unit requests what it needs of
 * the medium, one request after the other: read a sector, write sectors, or sync. You carry out each request, and only then
 * get outputs:
 *
 *     etcs_unit unit = {0};
 *     etcs_unit_output outputs[ETCS_UNIT_OUTPUTS];
 *     etcs_unit_output command = {0, 0, ETCS_STAND_BY, ETCS_LEVEL_INVALID, ETCS_BRAKE_EMERGENCY, ETCS_SHOWS_NOT_REVALIDATED};
 *     uint32_t count;
 *
 *     obey(&command);
 *     if (etcs_unit_begin(&unit, sectors, ETCS_COLD_UNKNOWN) != ETCS_UNIT_OK || !carry_out(&unit)
 *         || etcs_unit_release(&unit, outputs, ETCS_UNIT_OUTPUTS, &count) != ETCS_UNIT_OK) {
 *         brake();
 *         return;
 *     }
 *     for (;;) {
 *         if (etcs_unit_odometer(&unit, movement_cm(), speed_m_per_h()) != ETCS_UNIT_OK
 *             || etcs_unit_prepare(&unit) != ETCS_UNIT_OK || !carry_out(&unit)
 *             || etcs_unit_release(&unit, outputs, ETCS_UNIT_OUTPUTS, &count) != ETCS_UNIT_OK
 *             || etcs_unit_command(outputs, count, &command) != ETCS_UNIT_OK) {
 *             brake();
 *             break;
 *         }
 *         obey(&command);
 *     }
 *     etcs_unit_close(&unit);
 *
 * where carry_out is one loop, at power-up and in each cycle:
 *
 *     while ((status = etcs_unit_request(unit, &request, bytes, sizeof bytes)) == ETCS_UNIT_OK) {
 *         if (request.kind == ETCS_REQUEST_READ && read_sector(request.sector, bytes))
 *             status = etcs_unit_provide(unit, request.sector, bytes, ETCS_UNIT_SECTOR);
 *         else if (request.kind != ETCS_REQUEST_READ && do_on_medium(&request, bytes))
 *             status = etcs_unit_done(unit);
 *         else
 *             return etcs_unit_fail(unit), 0;
 *         if (status != ETCS_UNIT_OK)
 *             return 0;
 *     }
 *     return status == ETCS_UNIT_NO_SUCH_REQUEST;
 *
 * etcs_file.h has such a loop for a POSIX file, and etcs_executive.h a whole cycle. The release of a power-up returns no
 * output: until the first output, obey the emergency brake, with which `command` begins.
 *
 * A unit needs the same memory for every size of medium: it holds 16 sectors. If the whole medium is in memory, etcs_unit_open
 * answers the reads of the power-up. A later preparation may request a read too, so use the loop above for every unit.
 *
 * ANY RESULT BUT ETCS_UNIT_OK MEANS THE EMERGENCY BRAKE, unless it is a mistake that is put right before the next
 * output is due: etcs_status_classify sorts the results. Hold that brake, whatever is released, until the unit has been closed
 * and opened again (docs/explain/integration.md, 13). A compiler warns if such a result is dropped (ETCS_MUST_USE);
 * gcc does so even after a cast to void. Only an output of etcs_unit_release may reach the train.
 *
 * Every call returns, whatever numbers you pass, with a number of enum etcs_unit_status. For a null pointer it returns
 * ETCS_UNIT_NULL_POINTER. No call can test the following; you must ensure it:
 *
 * - an etcs_unit is all zeros before its first call, and from then on holds only what these calls left there; until it is
 *   closed nobody copies it, moves it or writes to it;
 * - each other pointer is valid for what it points to: a buffer for its length, a struct for its size; while the call runs
 *   nobody else writes there, and none of them overlap;
 * - a sector that you provide is what the medium holds at that moment, after every request that you reported as done;
 *   nobody but this unit writes to the medium from its power-up until it is closed;
 * - requests are carried out in their order, each completely before the next one, and reported as done only then;
 * - the value on movements without power is true (ETCS_COLD_UNKNOWN in doubt, and if a unit is opened after a fault);
 * - each call has its stack: ETCS_STACK_BYTES, unless its comment names another number. If the stack ends within a call, the
 *   program crashes, or other memory is overwritten.
 *
 * Make one call of a unit at a time. A unit may pass from one task to another, for example from the one that opens it to a
 * cyclic one, if a lock (or a queue, or the start of the task) orders their calls: the library keeps nothing except its units,
 * and nothing per thread. Units share nothing, so different ones may be called from different threads at once; if
 * you provide the memory, see etcs_memory.h. Memory is allocated by etcs_unit_begin and
 * etcs_unit_provide until the power-up is complete, by the calls that accept an input, and for the duration of the call by
 * etcs_unit_preview_telegram; etcs_unit_close frees all of it. No call blocks, and none is for a signal handler or an interrupt.
 *
 * The library also exports each call that this header defines, under the same name: for Ada, Python, and other languages that
 * read no header. There the number of the interface isn't compared: compare etcs_abi first.
 */
#ifndef ETCS_UNIT_H
#define ETCS_UNIT_H

#include <stddef.h>
#include <stdint.h>

#include "etcs.h"

#ifdef __cplusplus
extern "C" {
#endif

#if defined(__cplusplus)
#define ETCS_UNIT_ASSERT(what) static_assert(what, "the layout that the library has")
#elif defined(__STDC_VERSION__) && (__STDC_VERSION__ >= 201112L)
#define ETCS_UNIT_ASSERT(what) _Static_assert(what, "the layout that the library has")
#else
/* C99 has no assertion of its own: an array of size -1 is refused. */
#define ETCS_UNIT_ASSERT(what) extern char etcs_unit_assert_[(what) ? 1 : -1]
#endif

/** The number of this interface. It increases with each change that a caller can see. */
#define ETCS_UNIT_ABI 6

/** The version of the product that these headers belong to. etcs_version returns that of the library. */
#define ETCS_VERSION "0.1.0"

/** The same as a number, to compare: 1,000,000 for the first part, 1,000 for the second, 1 for the third. */
#define ETCS_VERSION_NUMBER 1000

/** The greatest size of the version, in bytes, with the zero at its end. */
#define ETCS_VERSION_BYTES 32

/** The greatest size of the description of a build, in bytes, with the zero at its end. */
#define ETCS_BUILD_INFO_BYTES 160

/** The size of a sector, in bytes. */
#define ETCS_UNIT_SECTOR 512

/** The greatest number of outputs of one release. */
#define ETCS_UNIT_OUTPUTS 8

/** The greatest number of bytes that one request writes. */
#define ETCS_UNIT_REQUEST_BYTES 8192

/** The greatest stack of a call, in bytes, unless its comment names another number. Code of other compilers, or for other
 * processors, may need more: on x86-64 and aarch64 the tests hold the frames of the library's code to these numbers. The stack
 * of the C library (memcpy, malloc) comes on top. */
#define ETCS_STACK_BYTES 16384

/** The stack of etcs_unit_preview_telegram and etcs_unit_preview_odometer. */
#define ETCS_STACK_BYTES_PREVIEW 106496

/** The stack of etcs_telegram_unused. */
#define ETCS_STACK_BYTES_UNUSED 36864

/* ---- the limits of inputs: beyond them a call returns OUT_OF_RANGE */

/** The greatest movement of one reading, forward or backward. */
#define ETCS_MOVEMENT_CM_MOST 10000

/** The greatest speed: of a reading, and of the train. */
#define ETCS_SPEED_M_PER_H_MOST 600000

/** The last moment: 2^40 - 1. */
#define ETCS_MOMENT_MS_MOST UINT64_C(0xFFFFFFFFFF)

/** The greatest number of characters of a driver's identity; the least is one. */
#define ETCS_IDENTITY_BYTES 16

/** The first character that an identity may have: a space. All up to the last one are printed ASCII. */
#define ETCS_IDENTITY_FIRST 0x20

/** The last character that an identity may have: a tilde. */
#define ETCS_IDENTITY_LAST 0x7E

/** The greatest running number. */
#define ETCS_RUNNING_NUMBER_MOST 99999999

/** The greatest length of a train; the least is 1 cm. */
#define ETCS_LENGTH_CM_MOST 409500

/** The greatest deceleration of a train; the least is 1 cm/s^2. */
#define ETCS_DECELERATION_CM_PER_S2_MOST 300

/** The greatest reaction time of a train's brakes. */
#define ETCS_REACTION_MS_MOST 10000

/** For a train of no category: the basic static speeds apply. 0 is a category, as 1 to 14 are. */
#define ETCS_CATEGORY_NONE 15

/** Whether the code of a library was proved. */
enum etcs_proof {
    ETCS_PROOF_UNKNOWN = 0,  /**< not known: it was built from an archive that no build of its sources left */
    ETCS_PROOF_UNPROVED = 1, /**< it was compiled without the proof */
    ETCS_PROOF_PROVED = 2    /**< its sources were proved */
};

/** The results of calls. docs/reference/refusals.md explains each.
 *
 * - 1 to 6, opening: no unit was opened; leave the medium as it is.
 * - 10 to 13, accepting an input: nothing changed.
 * - 21 to 23, preparing and releasing: nothing is released.
 * - 31 to 39, reading an image (etcs_image.h): nothing is written.
 * - 41, formatting.
 * - 247 to 255, the call itself: nothing changed. */
enum etcs_unit_status {
    ETCS_UNIT_OK = 0, /**< the call did what it was asked */

    /* opening */
    ETCS_UNIT_OPEN_DEVICE_FAULT = 1,  /**< never returned: there is capacity for all requests */
    ETCS_UNIT_OPEN_NOT_FORMATTED = 2, /**< the first sector isn't that of a journal, or is missing */
    ETCS_UNIT_OPEN_DAMAGED = 3,       /**< the size isn't that of the slots, or the newest block isn't readable */
    ETCS_UNIT_OPEN_NO_MEMORY = 4,     /**< there isn't enough memory for the unit and the sectors that it holds */
    ETCS_UNIT_OPEN_WORN_OUT = 6,      /**< there is no block number after 2^40: a new medium */

    /* accepting an input */
    ETCS_UNIT_PENDING_FULL = 10, /**< eight events are pending: prepare and release first */
    ETCS_UNIT_CLOCK_BACK = 11,   /**< the moment is before the last one of this life */
    ETCS_UNIT_NO_MEMORY = 12,    /**< memory was refused for the event, or for the replay of a life (etcs_image.h) */
    ETCS_UNIT_INPUT_FAILED = 13, /**< the medium failed before: close, and open again */

    /* preparing and releasing */
    ETCS_UNIT_FAILED = 21,        /**< the medium failed: close, and begin again */
    ETCS_UNIT_REQUESTS_OWED = 22, /**< requests aren't carried out, or their outputs not released yet */
    ETCS_UNIT_WORN_OUT = 23,      /**< there is no block number after 2^40: a new medium */

    /* reading an image */
    ETCS_UNIT_IMAGE_NOT_FORMATTED = 31, /**< the first sector isn't that of a journal, or is missing */
    ETCS_UNIT_IMAGE_DAMAGED = 32,       /**< the size isn't that of the slots, or a block of the journal isn't readable */
    ETCS_UNIT_NO_SUCH_SLOT = 35,        /**< the image has no such slot with all its sectors */
    ETCS_UNIT_NO_SUCH_BLOCK = 36,       /**< no slot holds the block with this number */
    ETCS_UNIT_NO_SUCH_RECORD = 37,      /**< the block has no such record */
    ETCS_UNIT_END = 38,                 /**< the journal ends */
    ETCS_UNIT_NOT_REPLAYED = 39,        /**< the life of the event can't be replayed */

    /* formatting */
    ETCS_UNIT_BAD_SLOTS = 41, /**< the number of slots isn't 2 to 1,048,576 */

    /* the call itself */
    ETCS_UNIT_NOT_RELEASED = 247,    /**< an input is pending, or outputs aren't released yet: release first */
    ETCS_UNIT_NO_SUCH_REQUEST = 249, /**< there is nothing to do on the medium */
    ETCS_UNIT_NOT_OPEN = 250,        /**< the unit is closed, was never opened, or its power-up isn't complete yet */
    ETCS_UNIT_IS_OPEN = 251,         /**< the unit is already open, or its power-up is in progress */
    ETCS_UNIT_NO_ROOM = 252,         /**< the buffer is too small */
    ETCS_UNIT_NULL_POINTER = 253,    /**< a pointer is null */
    ETCS_UNIT_OTHER_ABI = 254,       /**< the header belongs to another interface than the library */
    ETCS_UNIT_OUT_OF_RANGE = 255     /**< a number or a length is outside its limits */
};

/** The kind of a result (etcs_status_classify). */
enum etcs_status_kind {
    ETCS_KIND_OK = 0,      /**< the call did what it was asked */
    ETCS_KIND_MISTAKE = 1, /**< the driver or the program asked for something that can't be done: nothing changed; correct it, and call again */
    ETCS_KIND_FAULT = 2    /**< a sensor, the clock, the medium, memory or the library failed: the emergency brake */
};

/** The source of a call's values. */
enum etcs_source {
    ETCS_OF_DRIVER = 0,   /**< the driver: an identity, a number, train data, an action */
    ETCS_OF_EQUIPMENT = 1 /**< a sensor, the clock, a reader of balises, the program */
};

/** Whether the train was moved while the unit was without power. */
enum etcs_cold {
    ETCS_COLD_UNKNOWN = 0,  /**< nothing reliable watched it */
    ETCS_COLD_MOVED = 1,    /**< it was moved */
    ETCS_COLD_NOT_MOVED = 2 /**< something reliable watched it, and it did not move (docs/explain/safety.md, 13) */
};

/** The driver's actions that have no values (SUBSET-026, 5). */
enum etcs_action {
    ETCS_CHOOSE_LEVEL_0 = 1,
    ETCS_CHOOSE_LEVEL_1 = 2,
    ETCS_CONFIRM_IDENTITY = 3,
    ETCS_CONFIRM_RUNNING_NUMBER = 4,
    ETCS_CONFIRM_TRAIN_DATA = 5,
    ETCS_CONFIRM_LEVEL = 6,
    ETCS_START = 7,
    ETCS_CHOOSE_SHUNTING = 8,
    ETCS_LEAVE_SHUNTING = 9,
    ETCS_OVERRIDE = 10,
    ETCS_ACKNOWLEDGE_TRIP = 11,
    ETCS_ACKNOWLEDGE_ON_SIGHT = 12,
    ETCS_ACKNOWLEDGE_SHUNTING = 13,
    ETCS_ACKNOWLEDGE_LEVEL_0 = 14,
    ETCS_CLOSE_DESK = 15
};

/** M_MODE (SUBSET-026, 7.5.1). */
enum etcs_mode {
    ETCS_FULL_SUPERVISION = 0,
    ETCS_ON_SIGHT = 1,
    ETCS_STAFF_RESPONSIBLE = 2,
    ETCS_SHUNTING = 3,
    ETCS_UNFITTED = 4,
    ETCS_STAND_BY = 6,
    ETCS_TRIP = 7,
    ETCS_POST_TRIP = 8,
    ETCS_SYSTEM_FAILURE = 9
};

/** The level of the train. */
enum etcs_level { ETCS_LEVEL_0 = 0, ETCS_LEVEL_1 = 1, ETCS_LEVEL_INVALID = 255 };

/** The brake command. */
enum etcs_brake { ETCS_BRAKE_NONE = 0, ETCS_BRAKE_SERVICE = 1, ETCS_BRAKE_EMERGENCY = 2 };

/** Indications to the driver; etcs_unit_output has their sum. */
enum etcs_indication {
    ETCS_SHOWS_ON_SIGHT = 1,
    ETCS_SHOWS_SHUNTING = 2,
    ETCS_SHOWS_LEVEL_0 = 4,
    ETCS_SHOWS_TRIP = 8,
    ETCS_SHOWS_OVERRIDDEN = 16,
    ETCS_SHOWS_NOT_REVALIDATED = 32,
    ETCS_SHOWS_OVERSPEED = 64
};

/** The kinds of requests for the medium. */
enum etcs_request_kind { ETCS_REQUEST_WRITE = 1, ETCS_REQUEST_SYNC = 2, ETCS_REQUEST_READ = 3 };

/** Why a brake is commanded: the rows of the brake table, by their index in etcs_unit_why and etcs_why
 * (docs/explain/brakes.md, also for how each ends). The first six command the emergency brake. */
enum etcs_brake_cause {
    ETCS_CAUSE_NOT_REVALIDATED = 0,
    ETCS_CAUSE_IN_TRIP = 1,
    ETCS_CAUSE_IN_SYSTEM_FAILURE = 2,
    ETCS_CAUSE_OWES_TRIP = 3,
    ETCS_CAUSE_FAR_TOO_FAST = 4,
    ETCS_CAUSE_ROLLED_TOO_FAR = 5,
    ETCS_CAUSE_SERVICE_BRAKE_REQUESTED = 6,
    ETCS_CAUSE_TOO_FAST = 7,
    ETCS_CAUSE_MUST_STAND = 8,
    ETCS_CAUSE_OWES_TOO_LONG = 9
};

/** The number of causes. */
#define ETCS_BRAKE_CAUSES 10

/** What decides a limit (docs/explain/brakes.md). */
enum etcs_limit_cause {
    ETCS_LIMIT_NO_SPEED = 1,
    ETCS_LIMIT_NO_TRAIN_DATA = 2,
    ETCS_LIMIT_NATIONAL_STAFF_RESPONSIBLE = 3,
    ETCS_LIMIT_NATIONAL_OVERRIDE = 4,
    ETCS_LIMIT_NATIONAL_SHUNTING = 5,
    ETCS_LIMIT_NATIONAL_UNFITTED = 6,
    ETCS_LIMIT_TRAIN_MAXIMUM = 7,
    ETCS_LIMIT_MAIN_SPEED = 8,
    ETCS_LIMIT_END_SPEED = 9,
    ETCS_LIMIT_STATIC_SPEED = 10,
    ETCS_LIMIT_RESTRICTION = 11,
    ETCS_LIMIT_MODE_AREA = 12,
    ETCS_LIMIT_STATIC_SPEED_AHEAD = 13,
    ETCS_LIMIT_UNKNOWN_SPEED_AHEAD = 14,
    ETCS_LIMIT_RESTRICTION_AHEAD = 15,
    ETCS_LIMIT_MODE_AREA_AHEAD = 16,
    ETCS_LIMIT_END_OF_AUTHORITY = 17,
    ETCS_LIMIT_SUPERVISED_LOCATION = 18,
    ETCS_LIMIT_RELEASE_SPEED = 19,
    ETCS_LIMIT_NATIONAL_RELEASE_SPEED = 20
};

/** Whether the unit waits for an acknowledgement by the driver (SUBSET-026, 5.7, 5.9, 5.10). */
enum etcs_acknowledgement {
    ETCS_ACKNOWLEDGEMENT_NONE = 0,  /**< it doesn't */
    ETCS_ACKNOWLEDGEMENT_ASKED = 1, /**< before the transition */
    ETCS_ACKNOWLEDGEMENT_OWED = 2   /**< after the transition: 5 s later the service brake is commanded */
};

/** A unit, in the caller's memory, from its power-up on. Only the library uses its fields. */
typedef struct {
    void *at;         /**< its memory */
    uint64_t is_open; /**< 1 if it is open or its power-up is in progress, otherwise 0 */
} etcs_unit;

/** An output for the train. */
typedef struct {
    uint64_t event;        /**< the number of its event, counted from 0 over all lives */
    uint32_t limit_m_per_h; /**< the permitted speed */
    uint8_t mode;          /**< enum etcs_mode */
    uint8_t level;         /**< enum etcs_level */
    uint8_t brake;         /**< enum etcs_brake */
    uint8_t indications;   /**< the sum of enum etcs_indication */
} etcs_unit_output;

/** A request for the medium. */
typedef struct {
    uint64_t sector;  /**< of a read or a write: the first sector, counted from 0; otherwise 0 */
    uint64_t sectors; /**< of a read 1; of a write the number of sectors of ETCS_UNIT_SECTOR bytes each; otherwise 0 */
    uint64_t kind;    /**< enum etcs_request_kind */
} etcs_unit_request_info;

/** Train data (SUBSET-026, 3.18.3). Set all fields: a field that an initializer leaves out is 0, and few trains have that
 * `reaction_ms` or `category`. */
typedef struct {
    uint32_t length_cm;              /**< of the whole train: 1 to ETCS_LENGTH_CM_MOST */
    uint32_t maximum_m_per_h;        /**< the greatest speed of the train: 1 to ETCS_SPEED_M_PER_H_MOST */
    uint32_t deceleration_cm_per_s2; /**< the deceleration that its brakes are sure to reach: 1 to ETCS_DECELERATION_CM_PER_S2_MOST */
    uint32_t reaction_ms;            /**< the time until they are built up, with all delays of the equipment (docs/explain/integration.md): 0 to
                                      * ETCS_REACTION_MS_MOST. 0 (brakes that act at once) is the least safe */
    uint32_t category;               /**< 0 to 14, or ETCS_CATEGORY_NONE: if the track sends a static speed for that category
                                      * (NC_DIFF), it replaces the basic one, even if it is higher. 0 is such a category */
} etcs_train_data;

/** The state of a unit. */
typedef struct {
    etcs_unit_output last; /**< the newest output of the last release that had one; before that: event 0, Stand By, no valid level, emergency brake, not revalidated */
    uint64_t requests;     /**< the number of requests in the list */
    uint64_t done;         /**< the number of them that are done */
    uint64_t held;         /**< the number of outputs that are held back */
    uint64_t has_failed;   /**< 1 if etcs_unit_fail was called or a flush failed, otherwise 0 */
    uint64_t pending;      /**< the number of inputs accepted since the last preparation, at most eight */
    uint64_t moment_ms;    /**< the last accepted moment of this life; 0 before the first */
    int64_t front_cm;      /**< the estimated front after all accepted inputs, from where this life began */
    uint64_t uncertainty_cm; /**< its uncertainty to either side */
} etcs_unit_state_info;

/** The causes of the newest released output, and what a display shows of it. ERA's names for displays are in brackets.
 * A value that doesn't exist is 0. */
typedef struct {
    etcs_unit_output output;            /**< its limit is the permitted speed [V_PERM] */
    uint64_t backward_cm;               /**< the distance that the train has rolled backward since standstill */
    uint64_t allowed_backward_cm;       /**< D_NVROLL */
    int64_t limit_cause_cm;             /**< the place of the element that decides the limit, from where this life began */
    uint64_t restriction;               /**< NID_TSR, if a restriction decides it */
    uint64_t target_distance_cm;        /**< from the maximum safe front to the element ahead that decides the limit [D_TARGET] */
    uint64_t on_sight_ms;               /**< the time left to acknowledge on sight before the service brake is commanded; 0 if it is commanded already */
    uint64_t shunting_ms;               /**< the same of shunting */
    uint64_t level_0_ms;                /**< the same of level 0 */
    uint64_t override_ms;               /**< the time left of an override (T_NVOVTRP); 0 if that has no end */
    uint64_t override_cm;               /**< the distance left of it (D_NVOVTRP): it ends with the first of both */
    uint32_t service_brake_m_per_h;     /**< above this speed the service brake is commanded [V_SBI]: the limit plus 5 km/h */
    uint32_t emergency_brake_m_per_h;   /**< above this one the emergency brake is commanded [V_EBI]: the limit plus 10 km/h */
    uint32_t speed_m_per_h;             /**< of the last reading [V_TRAIN] */
    uint32_t limit_cause_m_per_h;       /**< the speed at the element ahead that decides the limit; otherwise the limit */
    uint32_t target_m_per_h;            /**< the speed at that element [V_TARGET] */
    uint32_t release_m_per_h;           /**< the release speed, if it is the limit [V_RELEASE] */
    uint8_t holds[ETCS_BRAKE_CAUSES];   /**< at the index of each enum etcs_brake_cause: 1 if it applies, otherwise 0 */
    uint8_t limit_cause;                /**< enum etcs_limit_cause */
    uint8_t has_place;                  /**< 1 if limit_cause_cm is a place */
    uint8_t has_restriction;            /**< 1 if restriction is a restriction */
    uint8_t has_target;                 /**< 1 if the element that decides the limit is ahead */
    uint8_t has_release;                /**< 1 if the release speed decides it */
    uint8_t on_sight;                   /**< of on sight: enum etcs_acknowledgement */
    uint8_t shunting;                   /**< the same of shunting */
    uint8_t level_0;                    /**< the same of level 0 */
    uint8_t has_override;               /**< 1 if the trip is overridden */
    uint8_t override_ends;              /**< 1 if the override also ends by time */
    uint8_t reserved[4];                /**< zeros */
} etcs_unit_why_info;

/** A time or a distance without an end. */
#define ETCS_ENDLESS UINT32_C(0xFFFFFFFF)

/** The status of a datum (SUBSET-026, 4.10). */
enum etcs_datum { ETCS_DATUM_UNKNOWN = 0, ETCS_DATUM_VALID = 1, ETCS_DATUM_INVALID = 2 };

/** One more than the greatest number of enum etcs_action. */
#define ETCS_ACTIONS 16

/** National values (SUBSET-026, 3.18.2). */
typedef struct {
    uint32_t shunting_m_per_h;              /**< V_NVSHUNT */
    uint32_t staff_responsible_m_per_h;     /**< V_NVSTFF */
    uint32_t on_sight_m_per_h;              /**< V_NVONSIGHT */
    uint32_t unfitted_m_per_h;              /**< V_NVUNFIT */
    uint32_t release_m_per_h;               /**< V_NVREL */
    uint32_t roll_cm;                       /**< D_NVROLL */
    uint32_t override_allowed_m_per_h;      /**< V_NVALLOWOVTRP */
    uint32_t override_m_per_h;              /**< V_NVSUPOVTRP */
    uint32_t override_distance_cm;          /**< D_NVOVTRP */
    uint32_t override_time_ms;              /**< T_NVOVTRP, or ETCS_ENDLESS */
    uint32_t staff_responsible_distance_cm; /**< D_NVSTFF, or ETCS_ENDLESS */
    uint32_t count;                         /**< the number of countries that they are for, at most 32 */
    uint16_t countries[32];                 /**< NID_C of each */
} etcs_national;

/** The data that a power-up keeps (SUBSET-026, 4.10). What isn't known is zero. */
typedef struct {
    int64_t distance_cm; /**< the distance from the group to the estimated front */
    etcs_train_data train; /**< train data, if has_train is 1 */
    uint32_t running_number; /**< the running number, if has_running_number is 1 */
    uint32_t country;    /**< NID_C of the reference group of the position */
    uint32_t group;      /**< NID_BG of that group */
    uint8_t identity[16];    /**< of the driver */
    uint8_t identity_len;    /**< 0 if no identity is known */
    uint8_t has_running_number; /**< 1 if one is known, otherwise 0 */
    uint8_t has_train;       /**< 1 if train data are known, otherwise 0 */
    uint8_t level_status;    /**< enum etcs_datum */
    uint8_t level;           /**< enum etcs_level */
    uint8_t position_status; /**< enum etcs_datum */
    uint8_t trip_outstanding; /**< 1 if a trip isn't acknowledged yet, otherwise 0 */
    uint8_t reserved;        /**< zero */
    etcs_national national;  /**< the national values in force */
} etcs_kept;

/** The driver's entries, and the actions of the driver that the unit would accept as its next input. */
typedef struct {
    etcs_kept kept;             /**< what the next power-up would find; identity, running number and train data are never valid after one */
    uint32_t speed_m_per_h;     /**< of the last reading of this life; 0 before the first */
    uint8_t mode;               /**< enum etcs_mode */
    uint8_t accepts[ETCS_ACTIONS]; /**< at the index of each enum etcs_action: 1 if it would be accepted, otherwise 0 */
    uint8_t accepts_identity;   /**< 1 if etcs_unit_identity would be accepted, whatever its value, otherwise 0 */
    uint8_t accepts_running_number; /**< the same of etcs_unit_running_number */
    uint8_t accepts_train_data; /**< the same of etcs_unit_train_data */
    uint8_t is_revalidated;     /**< 1 if the driver has revalidated since the power-up (SUBSET-026, 5.4), otherwise 0: the emergency brake */
    uint8_t identity_status;    /**< the status of the identity now: enum etcs_datum */
    uint8_t running_number_status; /**< of the running number */
    uint8_t train_status;       /**< of the train data */
    uint8_t gave_identity;      /**< 1 if the driver entered or confirmed the identity since the power-up (SUBSET-026, 5.4), otherwise 0 */
    uint8_t gave_level;         /**< the same of the level, also if it stayed valid over the power-up */
    uint8_t gave_train;         /**< the same of the train data */
    uint8_t has_left;           /**< 1 if the driver then started or chose shunting; with an identity and a level that is the revalidation */
} etcs_unit_driver_info;

/** Why an action of the driver isn't accepted: its first condition that fails, in this order. */
enum etcs_refusal {
    ETCS_REFUSAL_NONE = 0,                 /**< it is accepted */
    ETCS_REFUSAL_OTHER_MODE = 1,           /**< the action doesn't exist in the mode */
    ETCS_REFUSAL_NOT_AT_STANDSTILL = 2,    /**< the train moves */
    ETCS_REFUSAL_TOO_FAST = 3,             /**< the speed is above V_NVALLOWOVTRP, the greatest at which the trip may be overridden */
    ETCS_REFUSAL_NOTHING_TO_CONFIRM = 4,   /**< the value to confirm was never entered */
    ETCS_REFUSAL_IDENTITY_NOT_VALID = 5,   /**< enter or confirm the identity first */
    ETCS_REFUSAL_LEVEL_NOT_VALID = 6,      /**< choose or confirm the level first */
    ETCS_REFUSAL_TRIP_OUTSTANDING = 7,     /**< acknowledge the trip first */
    ETCS_REFUSAL_TRAIN_DATA_NOT_VALID = 8, /**< enter or confirm the train data first */
    ETCS_REFUSAL_NO_TRIP = 9,              /**< there is no trip to acknowledge */
    ETCS_REFUSAL_NOT_REQUESTED = 10        /**< this acknowledgement is neither requested nor overdue */
};

/** For each action of the driver, why it wouldn't be accepted as the next input. */
typedef struct {
    uint8_t actions[ETCS_ACTIONS]; /**< at the index of each enum etcs_action: enum etcs_refusal; index 0 is 0 */
    uint8_t identity;              /**< the same of etcs_unit_identity, whatever its value */
    uint8_t running_number;        /**< the same of etcs_unit_running_number */
    uint8_t train_data;            /**< the same of etcs_unit_train_data */
} etcs_unit_refusals_info;

/** The outcome of a balise group (SUBSET-026, 3.4.4 and 3.16.2). The first three are accepted: their packets are used. */
enum etcs_group_outcome {
    ETCS_GROUP_ANNOUNCED = 1,        /**< it was announced */
    ETCS_GROUP_NOT_LINKED = 2,       /**< it isn't linked */
    ETCS_GROUP_LINKING_UNUSED = 3,   /**< it is linked, and no group was announced */
    ETCS_GROUP_NOT_ANNOUNCED = 4,    /**< it is linked and wasn't announced, while others are */
    ETCS_GROUP_WRONG_WAY = 5,        /**< it was passed in the wrong direction */
    ETCS_GROUP_TOO_EARLY = 6,        /**< it was read before the place where it is announced */
    ETCS_GROUP_BALISE_MISSING = 7,   /**< one of its balises wasn't read, and no neighbour repeats it */
    ETCS_GROUP_COUNTERS_DIFFER = 8,  /**< its message counters don't agree */
    ETCS_GROUP_TELEGRAMS_DIFFER = 9  /**< its telegrams don't agree in N_TOTAL or in Q_LINK */
};

/** The reaction of linking (Q_LINKREACTION). */
enum etcs_reaction { ETCS_REACTION_TRIP = 0, ETCS_REACTION_SERVICE = 1, ETCS_REACTION_NONE = 2 };

/** A balise group that an input closes. */
typedef struct {
    uint32_t country;         /**< NID_C */
    uint32_t group;           /**< NID_BG */
    uint8_t outcome;          /**< enum etcs_group_outcome */
    uint8_t direction;        /**< the direction in which it was passed: enum etcs_direction */
    uint8_t reaction;         /**< the reaction of linking to it: enum etcs_reaction */
    uint8_t has_announcement; /**< 1 if it belongs to an announcement, otherwise 0 */
    uint8_t announcement;     /**< the index of the announcement in its packet 5, from 0 */
    uint8_t reserved[3];      /**< zeros */
} etcs_unit_group;

/** The outcome of the bytes of a balise, apart from the groups that they close (SUBSET-026, 3.4). */
enum etcs_telegram_outcome {
    ETCS_TELEGRAM_COUNTS = 1,       /**< they are a telegram that becomes part of its group */
    ETCS_TELEGRAM_GROUP_CLOSED = 2, /**< it is ignored: its group has closed, and the train hasn't left it */
    ETCS_TELEGRAM_REPEATED = 3,     /**< it is ignored: the group has a telegram of this balise already */
    ETCS_TELEGRAM_REFUSED = 4       /**< they contain no telegram */
};

/** What an input would do as the next one. A value that doesn't exist is 0. */
typedef struct {
    etcs_unit_group groups[2]; /**< the groups that it closes, in their order */
    uint8_t count;             /**< the number of groups */
    uint8_t telegram;          /**< of a telegram: enum etcs_telegram_outcome */
    uint8_t fault;             /**< why the bytes contain none: enum etcs_fault */
    uint8_t reserved;          /**< zero */
} etcs_unit_preview_info;

/** The direction in which a train passes a group. */
enum etcs_direction {
    ETCS_DIRECTION_REVERSE = 0,  /**< against the order of its balises */
    ETCS_DIRECTION_NOMINAL = 1,  /**< in the order of its balises */
    ETCS_DIRECTION_NOT_KNOWN = 2 /**< for example a single balise that wasn't announced */
};

/** Why a unit doesn't use a packet of a telegram. */
enum etcs_unused_reason {
    ETCS_UNUSED_NOT_KNOWN = 1,       /**< the kernel doesn't know its number (docs/reference/packets.md) */
    ETCS_UNUSED_INFILL = 2,          /**< it is a packet 136, or follows one */
    ETCS_UNUSED_IN_MODE = 3,         /**< the mode doesn't use packets with its number */
    ETCS_UNUSED_OTHER_DIRECTION = 4, /**< it isn't valid in the direction in which the group is passed */
    ETCS_UNUSED_REFUSED = 5          /**< the telegram is refused as a whole (etcs_decode returns why) */
};

/** A packet that a unit doesn't use. */
typedef struct {
    uint64_t start;  /**< the place of its first bit in the telegram, from 0 */
    uint64_t bits;   /**< its L_PACKET */
    uint32_t number; /**< NID_PACKET */
    uint32_t why;    /**< enum etcs_unused_reason */
} etcs_packet_unused;

/* (If a pointer has fewer than 64 bits, a number of 64 bits may have other offsets: only the C source supports such a machine.) */
ETCS_UNIT_ASSERT((sizeof(void *) < 8u) || ((sizeof(etcs_unit) == 16u) && (offsetof(etcs_unit, is_open) == 8u)));
ETCS_UNIT_ASSERT(sizeof(etcs_unit_output) == 16u && offsetof(etcs_unit_output, limit_m_per_h) == 8u && offsetof(etcs_unit_output, mode) == 12u
                 && offsetof(etcs_unit_output, level) == 13u && offsetof(etcs_unit_output, brake) == 14u && offsetof(etcs_unit_output, indications) == 15u);
ETCS_UNIT_ASSERT(sizeof(etcs_unit_request_info) == 24u && offsetof(etcs_unit_request_info, sectors) == 8u && offsetof(etcs_unit_request_info, kind) == 16u);
ETCS_UNIT_ASSERT(sizeof(etcs_train_data) == 20u && offsetof(etcs_train_data, length_cm) == 0u && offsetof(etcs_train_data, category) == 16u);
ETCS_UNIT_ASSERT(sizeof(etcs_unit_state_info) == 80u && offsetof(etcs_unit_state_info, requests) == 16u && offsetof(etcs_unit_state_info, has_failed) == 40u
                 && offsetof(etcs_unit_state_info, pending) == 48u && offsetof(etcs_unit_state_info, moment_ms) == 56u
                 && offsetof(etcs_unit_state_info, front_cm) == 64u && offsetof(etcs_unit_state_info, uncertainty_cm) == 72u);
ETCS_UNIT_ASSERT(sizeof(etcs_unit_why_info) == 144u && offsetof(etcs_unit_why_info, backward_cm) == 16u && offsetof(etcs_unit_why_info, on_sight_ms) == 56u
                 && offsetof(etcs_unit_why_info, override_ms) == 80u && offsetof(etcs_unit_why_info, service_brake_m_per_h) == 96u
                 && offsetof(etcs_unit_why_info, holds) == 120u && offsetof(etcs_unit_why_info, limit_cause) == 130u
                 && offsetof(etcs_unit_why_info, level_0) == 137u && offsetof(etcs_unit_why_info, has_override) == 138u
                 && offsetof(etcs_unit_why_info, reserved) == 140u);
ETCS_UNIT_ASSERT(sizeof(etcs_national) == 112u && offsetof(etcs_national, count) == 44u && offsetof(etcs_national, countries) == 48u);
ETCS_UNIT_ASSERT(sizeof(etcs_kept) == 176u && offsetof(etcs_kept, train) == 8u && offsetof(etcs_kept, running_number) == 28u
                 && offsetof(etcs_kept, identity) == 40u && offsetof(etcs_kept, identity_len) == 56u && offsetof(etcs_kept, national) == 64u);
ETCS_UNIT_ASSERT(sizeof(etcs_unit_driver_info) == 208u && offsetof(etcs_unit_driver_info, speed_m_per_h) == 176u
                 && offsetof(etcs_unit_driver_info, mode) == 180u && offsetof(etcs_unit_driver_info, accepts) == 181u
                 && offsetof(etcs_unit_driver_info, accepts_identity) == 197u && offsetof(etcs_unit_driver_info, is_revalidated) == 200u
                 && offsetof(etcs_unit_driver_info, identity_status) == 201u && offsetof(etcs_unit_driver_info, has_left) == 207u);
ETCS_UNIT_ASSERT(sizeof(etcs_unit_refusals_info) == 19u && offsetof(etcs_unit_refusals_info, identity) == 16u && offsetof(etcs_unit_refusals_info, train_data) == 18u);
ETCS_UNIT_ASSERT(sizeof(etcs_unit_group) == 16u && offsetof(etcs_unit_group, group) == 4u && offsetof(etcs_unit_group, outcome) == 8u
                 && offsetof(etcs_unit_group, announcement) == 12u);
ETCS_UNIT_ASSERT(sizeof(etcs_unit_preview_info) == 36u && offsetof(etcs_unit_preview_info, count) == 32u && offsetof(etcs_unit_preview_info, fault) == 34u);
ETCS_UNIT_ASSERT(sizeof(etcs_packet_unused) == 24u && offsetof(etcs_packet_unused, bits) == 8u && offsetof(etcs_packet_unused, number) == 16u
                 && offsetof(etcs_packet_unused, why) == 20u);

/* ---- the exports of the library: the calls below test pointers first, and then call these. Lengths have 64 bits in each library */

uint32_t etcs_version_(uint8_t *out, uint64_t room, uint32_t *len);
uint32_t etcs_build_info_(uint8_t *out, uint64_t room, uint32_t *len);
uint32_t etcs_unit_begin_(etcs_unit *unit, uint64_t sectors, uint32_t cold, uint32_t abi);
uint32_t etcs_unit_telegram_(etcs_unit *unit, const uint8_t *bytes, uint64_t len);
uint32_t etcs_unit_odometer_(etcs_unit *unit, int64_t movement_cm, uint32_t speed_m_per_h);
uint32_t etcs_unit_clock_(etcs_unit *unit, uint64_t moment_ms);
uint32_t etcs_unit_action_(etcs_unit *unit, uint32_t action);
uint32_t etcs_unit_identity_(etcs_unit *unit, const uint8_t *bytes, uint64_t len);
uint32_t etcs_unit_running_number_(etcs_unit *unit, uint32_t number);
uint32_t etcs_unit_train_data_(etcs_unit *unit, const etcs_train_data *data);
uint32_t etcs_unit_provide_(etcs_unit *unit, uint64_t sector, const uint8_t *bytes, uint64_t size);
uint32_t etcs_unit_prepare_(etcs_unit *unit);
uint32_t etcs_unit_request_(etcs_unit *unit, etcs_unit_request_info *request, uint8_t *bytes, uint64_t room);
uint32_t etcs_unit_done_(etcs_unit *unit);
uint32_t etcs_unit_fail_(etcs_unit *unit);
uint32_t etcs_unit_release_(etcs_unit *unit, etcs_unit_output *outputs, uint64_t room, uint32_t *count);
uint32_t etcs_unit_state_(etcs_unit *unit, etcs_unit_state_info *state);
uint32_t etcs_unit_why_(etcs_unit *unit, etcs_unit_why_info *why);
uint32_t etcs_unit_driver_(etcs_unit *unit, etcs_unit_driver_info *driver);
uint32_t etcs_unit_refusals_(etcs_unit *unit, etcs_unit_refusals_info *refusals);
uint32_t etcs_unit_preview_telegram_(etcs_unit *unit, const uint8_t *bytes, uint64_t len, etcs_unit_preview_info *preview);
uint32_t etcs_unit_preview_odometer_(etcs_unit *unit, int64_t movement_cm, uint32_t speed_m_per_h, etcs_unit_preview_info *preview);
uint32_t etcs_unit_close_(etcs_unit *unit);
uint32_t etcs_unit_format_request_(uint32_t slots, uint32_t index, etcs_unit_request_info *request, uint8_t *bytes, uint64_t room);
uint32_t etcs_telegram_unused_(const uint8_t *bytes, uint64_t len, uint32_t mode, uint32_t direction, uint32_t index, etcs_packet_unused *packet);

/* ---- the calls */

/** Returns the number of the library's interface: ETCS_UNIT_ABI of the header that belongs to the library. */
uint32_t etcs_abi(void);

/** Writes the version of the library, such as "0.1.0", with a zero at its end, and its length without that zero to `len`. Returns
 * OK, or NO_ROOM; then nothing is written. ETCS_VERSION_BYTES are always enough. */
static inline uint32_t etcs_version(uint8_t *out, size_t room, uint32_t *len) {
    uint32_t status = (uint32_t)ETCS_UNIT_NULL_POINTER;
    if ((out != NULL) && (len != NULL)) {
        status = etcs_version_(out, (room > 0u) ? (room - 1u) : 0u, len);
        if (status == (uint32_t)ETCS_UNIT_OK) {
            out[*len] = 0;
        }
    }
    return status;
}

/** Writes which build the library is, such as "Gaknifur 0.1.0, commit 1a2b3c4d, sources DIGEST, proved", with a zero at its end,
 * and its length without that zero to `len`. DIGEST is the SHA-256 of the sources that the proof reads (tools/version --sources).
 * Returns OK, or NO_ROOM; then nothing is written. ETCS_BUILD_INFO_BYTES are always enough. The library's file contains the
 * same text. Compare it with that of the library that you validated. This call and the next one are C code outside of the
 * proof. */
static inline uint32_t etcs_build_info(uint8_t *out, size_t room, uint32_t *len) {
    uint32_t status = (uint32_t)ETCS_UNIT_NULL_POINTER;
    if ((out != NULL) && (len != NULL)) {
        status = etcs_build_info_(out, (room > 0u) ? (room - 1u) : 0u, len);
        if (status == (uint32_t)ETCS_UNIT_OK) {
            out[*len] = 0;
        }
    }
    return status;
}

/** Returns whether the library was proved (enum etcs_proof), as its builder knew. A train needs ETCS_PROOF_PROVED. */
uint32_t etcs_build_proof(void);

/* ---- names of numbers, as etcs_lab prints them (docs/reference/json.md): each text is constant and never freed */

/* The text of a number, or "unknown" if the table has none. */
static inline const char *etcs_name_(const char *const *names, uint32_t count, uint32_t number) {
    return ((number < count) && (names[number] != NULL)) ? names[number] : "unknown";
}

/** Returns the name of a number of enum etcs_proof; "unknown" for other numbers. */
static inline const char *etcs_proof_name(uint32_t number) {
    static const char *const names[] = {NULL, "unproved", "proved"};
    return etcs_name_(names, (uint32_t)(sizeof names / sizeof names[0]), number);
}

/** Returns the name of a number of enum etcs_mode, in two letters; "unknown" for other numbers. */
static inline const char *etcs_mode_name(uint32_t number) {
    static const char *const names[] = {"FS", "OS", "SR", "SH", "UN", NULL, "SB", "TR", "PT", "SF"};
    return etcs_name_(names, (uint32_t)(sizeof names / sizeof names[0]), number);
}

/** Returns the name of a number of enum etcs_level: "0", "1", or "-" if the level isn't valid; "unknown" for other numbers. */
static inline const char *etcs_level_name(uint32_t number) {
    static const char *const names[] = {"0", "1"};
    return (number == (uint32_t)ETCS_LEVEL_INVALID) ? "-" : etcs_name_(names, 2, number);
}

/** Returns the name of a number of enum etcs_brake; "unknown" for other numbers. */
static inline const char *etcs_brake_name(uint32_t number) {
    static const char *const names[] = {"none", "service", "emergency"};
    return etcs_name_(names, (uint32_t)(sizeof names / sizeof names[0]), number);
}

/** Returns the name of one indication (enum etcs_indication), not of a sum; "unknown" for other numbers. */
static inline const char *etcs_indication_name(uint32_t number) {
    static const char *const names[] = {"on_sight", "shunting", "level_0", "trip", "overridden", "not_revalidated", "overspeed"};
    uint32_t bit = 0;
    while ((bit < 8u) && (number != (UINT32_C(1) << bit))) {
        bit++;
    }
    return etcs_name_(names, (uint32_t)(sizeof names / sizeof names[0]), bit);
}

/** Returns the name of a number of enum etcs_brake_cause; "unknown" for other numbers. */
static inline const char *etcs_brake_cause_name(uint32_t number) {
    static const char *const names[] = {
        "not_revalidated", "in_trip", "in_system_failure", "owes_trip", "far_too_fast", "rolled_too_far",
        "service_brake_requested", "too_fast", "must_stand", "owes_too_long"
    };
    return etcs_name_(names, (uint32_t)(sizeof names / sizeof names[0]), number);
}

/** Returns the name of a number of enum etcs_limit_cause; "unknown" for other numbers. */
static inline const char *etcs_limit_cause_name(uint32_t number) {
    static const char *const names[] = {
        NULL, "no_speed", "no_train_data", "national_staff_responsible", "national_override", "national_shunting",
        "national_unfitted", "train_maximum", "main_speed", "end_speed", "static_speed", "restriction", "mode_area",
        "static_speed_ahead", "unknown_speed_ahead", "restriction_ahead", "mode_area_ahead", "end_of_authority",
        "supervised_location", "release_speed", "national_release_speed"
    };
    return etcs_name_(names, (uint32_t)(sizeof names / sizeof names[0]), number);
}

/** Returns the name of a number of enum etcs_acknowledgement; "unknown" for other numbers. */
static inline const char *etcs_acknowledgement_name(uint32_t number) {
    static const char *const names[] = {"none", "asked", "owed"};
    return etcs_name_(names, (uint32_t)(sizeof names / sizeof names[0]), number);
}

/** Returns the name of a number of enum etcs_action; "unknown" for other numbers. */
static inline const char *etcs_action_name(uint32_t number) {
    static const char *const names[] = {
        NULL, "choose_level_0", "choose_level_1", "confirm_identity", "confirm_running_number", "confirm_train_data",
        "confirm_level", "start", "choose_shunting", "leave_shunting", "override", "acknowledge_trip",
        "acknowledge_on_sight", "acknowledge_shunting", "acknowledge_level_0", "close_desk"
    };
    return etcs_name_(names, (uint32_t)(sizeof names / sizeof names[0]), number);
}

/** Returns the name of a number of enum etcs_datum; "unknown" for other numbers. */
static inline const char *etcs_datum_name(uint32_t number) {
    static const char *const names[] = {"unknown", "valid", "invalid"};
    return etcs_name_(names, (uint32_t)(sizeof names / sizeof names[0]), number);
}

/** Returns the name of a number of enum etcs_refusal; "unknown" for other numbers. */
static inline const char *etcs_refusal_name(uint32_t number) {
    static const char *const names[] = {
        "none", "other_mode", "not_at_standstill", "too_fast", "nothing_to_confirm", "identity_not_valid",
        "level_not_valid", "trip_outstanding", "train_data_not_valid", "no_trip", "not_requested"
    };
    return etcs_name_(names, (uint32_t)(sizeof names / sizeof names[0]), number);
}

/** Returns the name of a number of enum etcs_group_outcome; "unknown" for other numbers. */
static inline const char *etcs_group_outcome_name(uint32_t number) {
    static const char *const names[] = {
        NULL, "announced", "not_linked", "linking_unused", "not_announced", "wrong_way", "too_early", "balise_missing",
        "counters_differ", "telegrams_differ"
    };
    return etcs_name_(names, (uint32_t)(sizeof names / sizeof names[0]), number);
}

/** Returns the name of a number of enum etcs_reaction; "unknown" for other numbers. */
static inline const char *etcs_reaction_name(uint32_t number) {
    static const char *const names[] = {"trip", "service", "none"};
    return etcs_name_(names, (uint32_t)(sizeof names / sizeof names[0]), number);
}

/** Returns the name of a number of enum etcs_telegram_outcome; "unknown" for other numbers. */
static inline const char *etcs_telegram_outcome_name(uint32_t number) {
    static const char *const names[] = {NULL, "counts", "group_closed", "repeated", "refused"};
    return etcs_name_(names, (uint32_t)(sizeof names / sizeof names[0]), number);
}

/** Returns the name of a number of enum etcs_cold; "unknown" for other numbers. */
static inline const char *etcs_cold_name(uint32_t number) {
    static const char *const names[] = {"unknown", "moved", "not_moved"};
    return etcs_name_(names, (uint32_t)(sizeof names / sizeof names[0]), number);
}

/** Returns the name of a number of enum etcs_status_kind; "unknown" for other numbers. */
static inline const char *etcs_status_kind_name(uint32_t number) {
    static const char *const names[] = {"ok", "mistake", "fault"};
    return etcs_name_(names, (uint32_t)(sizeof names / sizeof names[0]), number);
}

/** Returns the name of a number of enum etcs_request_kind; "unknown" for other numbers. */
static inline const char *etcs_request_kind_name(uint32_t number) {
    static const char *const names[] = {NULL, "write", "sync", "read"};
    return etcs_name_(names, (uint32_t)(sizeof names / sizeof names[0]), number);
}

/** Returns the name of a number of enum etcs_fault, as docs/reference/refusals.md has it; "unknown" for other numbers. */
static inline const char *etcs_fault_name(uint32_t number) {
    static const char *const names[] = {
        "OK", "Truncated", "WrongLength", "Spare", "OutOfRange", "WrongVersion", "NotUplink", "NotBalise", "NoEnd",
        "TooLong"
    };
    return etcs_name_(names, (uint32_t)(sizeof names / sizeof names[0]), number);
}

/** Returns the name of a number of enum etcs_direction; "unknown" for other numbers. */
static inline const char *etcs_direction_name(uint32_t number) {
    static const char *const names[] = {"reverse", "nominal", "not_known"};
    return etcs_name_(names, (uint32_t)(sizeof names / sizeof names[0]), number);
}

/** Returns the name of a number of enum etcs_unused_reason; "unknown" for other numbers. */
static inline const char *etcs_unused_reason_name(uint32_t number) {
    static const char *const names[] = {NULL, "not_known", "infill", "not_in_mode", "other_direction", "refused"};
    return etcs_name_(names, (uint32_t)(sizeof names / sizeof names[0]), number);
}

/** Returns the name of a number of enum etcs_unit_status, without ETCS_UNIT_; "unknown" for other numbers. */
static inline const char *etcs_status_name(uint32_t status) {
    const char *text = "unknown";
    switch (status) {
    case (uint32_t)ETCS_UNIT_OK: text = "OK"; break;
    case (uint32_t)ETCS_UNIT_OPEN_DEVICE_FAULT: text = "OPEN_DEVICE_FAULT"; break;
    case (uint32_t)ETCS_UNIT_OPEN_NOT_FORMATTED: text = "OPEN_NOT_FORMATTED"; break;
    case (uint32_t)ETCS_UNIT_OPEN_DAMAGED: text = "OPEN_DAMAGED"; break;
    case (uint32_t)ETCS_UNIT_OPEN_NO_MEMORY: text = "OPEN_NO_MEMORY"; break;
    case (uint32_t)ETCS_UNIT_OPEN_WORN_OUT: text = "OPEN_WORN_OUT"; break;
    case (uint32_t)ETCS_UNIT_PENDING_FULL: text = "PENDING_FULL"; break;
    case (uint32_t)ETCS_UNIT_CLOCK_BACK: text = "CLOCK_BACK"; break;
    case (uint32_t)ETCS_UNIT_NO_MEMORY: text = "NO_MEMORY"; break;
    case (uint32_t)ETCS_UNIT_INPUT_FAILED: text = "INPUT_FAILED"; break;
    case (uint32_t)ETCS_UNIT_FAILED: text = "FAILED"; break;
    case (uint32_t)ETCS_UNIT_REQUESTS_OWED: text = "REQUESTS_OWED"; break;
    case (uint32_t)ETCS_UNIT_WORN_OUT: text = "WORN_OUT"; break;
    case (uint32_t)ETCS_UNIT_IMAGE_NOT_FORMATTED: text = "IMAGE_NOT_FORMATTED"; break;
    case (uint32_t)ETCS_UNIT_IMAGE_DAMAGED: text = "IMAGE_DAMAGED"; break;
    case (uint32_t)ETCS_UNIT_NO_SUCH_SLOT: text = "NO_SUCH_SLOT"; break;
    case (uint32_t)ETCS_UNIT_NO_SUCH_BLOCK: text = "NO_SUCH_BLOCK"; break;
    case (uint32_t)ETCS_UNIT_NO_SUCH_RECORD: text = "NO_SUCH_RECORD"; break;
    case (uint32_t)ETCS_UNIT_END: text = "END"; break;
    case (uint32_t)ETCS_UNIT_NOT_REPLAYED: text = "NOT_REPLAYED"; break;
    case (uint32_t)ETCS_UNIT_BAD_SLOTS: text = "BAD_SLOTS"; break;
    case (uint32_t)ETCS_UNIT_NOT_RELEASED: text = "NOT_RELEASED"; break;
    case (uint32_t)ETCS_UNIT_NO_SUCH_REQUEST: text = "NO_SUCH_REQUEST"; break;
    case (uint32_t)ETCS_UNIT_NOT_OPEN: text = "NOT_OPEN"; break;
    case (uint32_t)ETCS_UNIT_IS_OPEN: text = "IS_OPEN"; break;
    case (uint32_t)ETCS_UNIT_NO_ROOM: text = "NO_ROOM"; break;
    case (uint32_t)ETCS_UNIT_NULL_POINTER: text = "NULL_POINTER"; break;
    case (uint32_t)ETCS_UNIT_OTHER_ABI: text = "OTHER_ABI"; break;
    case (uint32_t)ETCS_UNIT_OUT_OF_RANGE: text = "OUT_OF_RANGE"; break;
    default: break;
    }
    return text;
}

/** Returns the kind of a result: no error, a mistake, or a fault that needs the emergency brake (enum etcs_status_kind).
 * Call it with any result that isn't OK. `source` is the source of the call's values (enum etcs_source): identity, running
 * number, train data and actions come from the driver, all others from the equipment. Out of range is a mistake of the driver,
 * but a fault of a sensor, the clock or a balise reader. A mistake of the program, such as PENDING_FULL, is only a mistake
 * if it is corrected at once; a reading that the unit never gets counts as a failed sensor. */
ETCS_MUST_USE
static inline uint32_t etcs_status_classify(uint32_t status, uint32_t source) {
    uint32_t kind = (uint32_t)ETCS_KIND_FAULT;
    switch (status) {
    case (uint32_t)ETCS_UNIT_OK:
        kind = (uint32_t)ETCS_KIND_OK;
        break;
    case (uint32_t)ETCS_UNIT_OUT_OF_RANGE:
        kind = (source == (uint32_t)ETCS_OF_DRIVER) ? (uint32_t)ETCS_KIND_MISTAKE : (uint32_t)ETCS_KIND_FAULT;
        break;
    case (uint32_t)ETCS_UNIT_PENDING_FULL:
    case (uint32_t)ETCS_UNIT_REQUESTS_OWED:
    case (uint32_t)ETCS_UNIT_NOT_RELEASED:
    case (uint32_t)ETCS_UNIT_NO_SUCH_REQUEST:
    case (uint32_t)ETCS_UNIT_IS_OPEN:
    case (uint32_t)ETCS_UNIT_NO_ROOM:
    case (uint32_t)ETCS_UNIT_NULL_POINTER:
    case (uint32_t)ETCS_UNIT_BAD_SLOTS:
        kind = (uint32_t)ETCS_KIND_MISTAKE;
        break;
    default:
        break;
    }
    return kind;
}

/** Begins a power-up on a medium of `sectors` sectors. Call it after each power-up, and after a failure; then carry out the
 * requests of etcs_unit_request, and release: that returns no output, so obey the emergency brake until the next release. The
 * power-up reads the first sector, the gate of each slot, and the head if that gate is open, then the six sectors of the
 * newest block's slot, and the gate of the next one. Until then the unit isn't open. Returns OK, IS_OPEN, OTHER_ABI,
 * OUT_OF_RANGE (`cold`), OPEN_NO_MEMORY, or OPEN_NOT_FORMATTED if `sectors` is 0. Unless it returns OK, nothing has
 * changed. It allocates all memory that the power-up needs: for the unit, for 16 sectors and for some 9 kB of requests, whatever
 * the medium's size. */
ETCS_MUST_USE
static inline uint32_t etcs_unit_begin(etcs_unit *unit, uint64_t sectors, uint32_t cold) {
    return (unit != NULL) ? etcs_unit_begin_(unit, sectors, cold, ETCS_UNIT_ABI) : (uint32_t)ETCS_UNIT_NULL_POINTER;
}

/** Begins a power-up on the bytes of the whole medium, `len` bytes, and answers its reads from them. Call it in place of
 * etcs_unit_begin if all bytes are in memory. Then the unit is open, with the requests of its power-up. It keeps no copy:
 * etcs_unit_request may return a READ after each etcs_unit_prepare. Returns OK, IS_OPEN, OTHER_ABI, OUT_OF_RANGE (`cold`), or a
 * status of opening. Unless it returns OK, the unit is as before. */
ETCS_MUST_USE
static inline uint32_t etcs_unit_open(etcs_unit *unit, const uint8_t *image, size_t len, uint32_t cold) {
    uint32_t status = (uint32_t)ETCS_UNIT_NULL_POINTER;
    if ((unit != NULL) && (image != NULL)) {
        etcs_unit_request_info next = {0, 0, 0};
        uint8_t none = 0;
        status = etcs_unit_begin_(unit, len / (size_t)ETCS_UNIT_SECTOR, cold, ETCS_UNIT_ABI);
        while ((status == (uint32_t)ETCS_UNIT_OK) && (etcs_unit_request_(unit, &next, &none, 0) == (uint32_t)ETCS_UNIT_OK)
               && (next.kind == (uint64_t)ETCS_REQUEST_READ)) {
            status = etcs_unit_provide_(unit, next.sector, &image[(size_t)next.sector * (size_t)ETCS_UNIT_SECTOR], ETCS_UNIT_SECTOR);
        }
    }
    return status;
}

/* ---- inputs: each call accepts one input into memory, also while requests are carried out. Nothing is released. They return
 * OK, NOT_OPEN, OUT_OF_RANGE, or a status of accepting an input, tested in this order; unless they return OK nothing changed. */

/** Accepts the user bits of a telegram that a balise sent, as 1 to ETCS_TELEGRAM_BYTES bytes. A balise sends 1,023 or 341
 * bits in the coding of SUBSET-036; the balise reader checks and removes that coding. 830 or 210 user bits are left:
 * the first one is the highest bit of the first byte, and the last byte is filled up with any bits (104 or 27 bytes). Call it
 * while the movement up to that balise is the last accepted one. The bytes need not contain a telegram. */
ETCS_MUST_USE
static inline uint32_t etcs_unit_telegram(etcs_unit *unit, const uint8_t *bytes, size_t len) {
    return ((unit != NULL) && (bytes != NULL)) ? etcs_unit_telegram_(unit, bytes, len) : (uint32_t)ETCS_UNIT_NULL_POINTER;
}

/** Accepts a reading of the odometer: the movement since the last one, forward or backward (-ETCS_MOVEMENT_CM_MOST to
 * ETCS_MOVEMENT_CM_MOST), and the speed now (0 to ETCS_SPEED_M_PER_H_MOST). Call it in each cycle. The speed is 0 only at
 * standstill. */
ETCS_MUST_USE
static inline uint32_t etcs_unit_odometer(etcs_unit *unit, int64_t movement_cm, uint32_t speed_m_per_h) {
    return (unit != NULL) ? etcs_unit_odometer_(unit, movement_cm, speed_m_per_h) : (uint32_t)ETCS_UNIT_NULL_POINTER;
}

/** Accepts a moment of this life, in milliseconds: 0 to ETCS_MOMENT_MS_MOST. Call it in each cycle. Moments never go back. */
ETCS_MUST_USE
static inline uint32_t etcs_unit_clock(etcs_unit *unit, uint64_t moment_ms) {
    return (unit != NULL) ? etcs_unit_clock_(unit, moment_ms) : (uint32_t)ETCS_UNIT_NULL_POINTER;
}

/** Accepts an action of the driver: a number of enum etcs_action. Call it when the driver acts. */
ETCS_MUST_USE
static inline uint32_t etcs_unit_action(etcs_unit *unit, uint32_t action) {
    return (unit != NULL) ? etcs_unit_action_(unit, action) : (uint32_t)ETCS_UNIT_NULL_POINTER;
}

/** Accepts the driver's identity: 1 to ETCS_IDENTITY_BYTES characters from ETCS_IDENTITY_FIRST to ETCS_IDENTITY_LAST. Call it
 * when the driver has entered it. */
ETCS_MUST_USE
static inline uint32_t etcs_unit_identity(etcs_unit *unit, const uint8_t *bytes, size_t len) {
    return ((unit != NULL) && (bytes != NULL)) ? etcs_unit_identity_(unit, bytes, len) : (uint32_t)ETCS_UNIT_NULL_POINTER;
}

/** Accepts the running number: 0 to ETCS_RUNNING_NUMBER_MOST. Call it when the driver has entered it. */
ETCS_MUST_USE
static inline uint32_t etcs_unit_running_number(etcs_unit *unit, uint32_t number) {
    return (unit != NULL) ? etcs_unit_running_number_(unit, number) : (uint32_t)ETCS_UNIT_NULL_POINTER;
}

/** Accepts train data; etcs_train_data has their limits. Call it when the driver has entered them, or the vehicle has sent them. */
ETCS_MUST_USE
static inline uint32_t etcs_unit_train_data(etcs_unit *unit, const etcs_train_data *data) {
    return ((unit != NULL) && (data != NULL)) ? etcs_unit_train_data_(unit, data) : (uint32_t)ETCS_UNIT_NULL_POINTER;
}

/* ---- from inputs to outputs */

/** Turns the accepted inputs into requests for the medium, and holds their outputs back. Call it once a cycle, after the
 * inputs; without inputs the list stays empty. Then carry out the requests that etcs_unit_request returns. The first may be
 * to read a sector. Returns OK, NOT_OPEN, or a status of preparing. */
ETCS_MUST_USE
static inline uint32_t etcs_unit_prepare(etcs_unit *unit) {
    return (unit != NULL) ? etcs_unit_prepare_(unit) : (uint32_t)ETCS_UNIT_NULL_POINTER;
}

/** Writes the next request for the medium, and the bytes of a write. Call it until it returns NO_SUCH_REQUEST, at
 * power-up and in each cycle, and carry out each request before the next call: after a READ call etcs_unit_provide, after a
 * WRITE or a SYNC etcs_unit_done, and etcs_unit_fail if the medium failed. Until then it returns the same request.
 * Returns OK, NOT_OPEN, NO_SUCH_REQUEST, or NO_ROOM if the request writes more than `room` bytes; it writes nothing unless it
 * returns OK. ETCS_UNIT_REQUEST_BYTES are always enough. */
ETCS_MUST_USE
static inline uint32_t etcs_unit_request(etcs_unit *unit, etcs_unit_request_info *request, uint8_t *bytes, size_t room) {
    return ((unit != NULL) && (request != NULL) && (bytes != NULL)) ? etcs_unit_request_(unit, request, bytes, room) : (uint32_t)ETCS_UNIT_NULL_POINTER;
}

/** Provides the bytes of a sector of the medium: ETCS_UNIT_SECTOR bytes. Call it after etcs_unit_request returned a READ,
 * with its sector. The power-up, or the flush, continues with it. Returns OK, NOT_OPEN, or OUT_OF_RANGE if the medium has no
 * such sector or `size` is another one; then nothing has changed. A status of opening, but never OPEN_NO_MEMORY, refuses the
 * power-up: no unit is open, nothing was written; leave the medium as it is. A status of preparing refuses the
 * flush. */
ETCS_MUST_USE
static inline uint32_t etcs_unit_provide(etcs_unit *unit, uint64_t sector, const uint8_t *bytes, size_t size) {
    return ((unit != NULL) && (bytes != NULL)) ? etcs_unit_provide_(unit, sector, bytes, size) : (uint32_t)ETCS_UNIT_NULL_POINTER;
}

/** Reports that a WRITE or a SYNC is carried out: the one that etcs_unit_request returned. Returns OK, NOT_OPEN, or
 * NO_SUCH_REQUEST if there is no WRITE or SYNC to do; then nothing has changed. */
ETCS_MUST_USE
static inline uint32_t etcs_unit_done(etcs_unit *unit) {
    return (unit != NULL) ? etcs_unit_done_(unit) : (uint32_t)ETCS_UNIT_NULL_POINTER;
}

/** Reports that the medium failed. Call it if a request can't be carried out. From then on inputs return INPUT_FAILED, and
 * prepare and release return FAILED: close the unit, and begin again. etcs_unit_request, _provide and _done still return OK up to
 * the end of the list; that has no meaning, since nothing is released. A power-up that isn't complete is abandoned,
 * as by etcs_unit_close: nothing was written. Returns OK or NOT_OPEN. */
static inline uint32_t etcs_unit_fail(etcs_unit *unit) {
    return (unit != NULL) ? etcs_unit_fail_(unit) : (uint32_t)ETCS_UNIT_NULL_POINTER;
}

/** Releases all outputs that were held back, into a buffer for ETCS_UNIT_OUTPUTS, and empties the list. Call it
 * once all requests are done, and then etcs_unit_command. `count` is the number of outputs, the oldest first. Returns OK,
 * NOT_OPEN, NO_ROOM (fewer than ETCS_UNIT_OUTPUTS), FAILED, or REQUESTS_OWED if not all requests are carried out. Unless it
 * returns OK, nothing has changed, and neither an output nor `count` is written. */
ETCS_MUST_USE
static inline uint32_t etcs_unit_release(etcs_unit *unit, etcs_unit_output *outputs, size_t room, uint32_t *count) {
    uint32_t released = 0;
    uint32_t status = (uint32_t)ETCS_UNIT_NULL_POINTER;
    if ((unit != NULL) && (outputs != NULL) && (count != NULL)) {
        status = etcs_unit_release_(unit, outputs, room, &released);
        if (status == (uint32_t)ETCS_UNIT_OK) {
            *count = released;
        }
    }
    return status;
}

/** Merges the outputs of one release into what the equipment obeys until the next one: the newest output, with the most
 * restrictive brake of them all (docs/explain/integration.md, 12). Call it after each release, with what that wrote. Returns OK, or
 * OUT_OF_RANGE if `count` is above ETCS_UNIT_OUTPUTS or a brake is none of enum etcs_brake; then, and if `count` is 0,
 * `command` stays as it was. So set it to the emergency brake before each opening, whose release has no output. */
ETCS_MUST_USE
static inline uint32_t etcs_unit_command(const etcs_unit_output *outputs, uint32_t count, etcs_unit_output *command) {
    uint32_t status = (uint32_t)ETCS_UNIT_NULL_POINTER;
    if ((outputs != NULL) && (command != NULL)) {
        uint8_t brake = (uint8_t)ETCS_BRAKE_NONE;
        status = (count <= (uint32_t)ETCS_UNIT_OUTPUTS) ? (uint32_t)ETCS_UNIT_OK : (uint32_t)ETCS_UNIT_OUT_OF_RANGE;
        for (uint32_t i = 0; (status == (uint32_t)ETCS_UNIT_OK) && (i < count); i++) {
            brake = (outputs[i].brake > brake) ? outputs[i].brake : brake;
        }
        if (brake > (uint8_t)ETCS_BRAKE_EMERGENCY) {
            status = (uint32_t)ETCS_UNIT_OUT_OF_RANGE;
        }
        if ((status == (uint32_t)ETCS_UNIT_OK) && (count > 0u)) {
            *command = outputs[count - 1u];
            command->brake = brake;
        }
    }
    return status;
}

/** Writes the state of the unit, and what is known of its life. Call it at any time. Returns OK, or NOT_OPEN; then `state`
 * isn't written. */
static inline uint32_t etcs_unit_state(etcs_unit *unit, etcs_unit_state_info *state) {
    return ((unit != NULL) && (state != NULL)) ? etcs_unit_state_(unit, state) : (uint32_t)ETCS_UNIT_NULL_POINTER;
}

/** Explains the newest released output, and writes what a display shows with it. Call it after a release; it allocates nothing
 * and changes nothing. It doesn't explain a brake that etcs_unit_command took from an earlier output of the release. After
 * the release of the opening it explains the power-up, whose output no release returns. etcs_image_why finds in the bytes of
 * the medium since when a cause applies, and why a trip was entered. Returns OK, NOT_OPEN, or NOT_RELEASED, exactly while
 * an input is pending or outputs aren't released; `why` is written only with OK. */
static inline uint32_t etcs_unit_why(etcs_unit *unit, etcs_unit_why_info *why) {
    return ((unit != NULL) && (why != NULL)) ? etcs_unit_why_(unit, why) : (uint32_t)ETCS_UNIT_NULL_POINTER;
}

/** Writes the driver's entries, and the actions of the driver that the unit would accept as its next input. An action that isn't
 * accepted has no effect, though its call returns OK: so disable its key. Call it after a release; it allocates nothing
 * and changes nothing. Returns OK, NOT_OPEN, or NOT_RELEASED, exactly while an input is pending or outputs aren't
 * released; `driver` is written only with OK. */
static inline uint32_t etcs_unit_driver(etcs_unit *unit, etcs_unit_driver_info *driver) {
    return ((unit != NULL) && (driver != NULL)) ? etcs_unit_driver_(unit, driver) : (uint32_t)ETCS_UNIT_NULL_POINTER;
}

/** Writes for each action of the driver why the unit wouldn't accept it as its next input, after all accepted inputs. Call it
 * before you pass an action to the unit: the action has an effect exactly if its reason is ETCS_REFUSAL_NONE. It allocates
 * nothing and changes nothing. Its results may rest on inputs that aren't released yet. Returns OK, or NOT_OPEN; then
 * `refusals` isn't written. */
static inline uint32_t etcs_unit_refusals(etcs_unit *unit, etcs_unit_refusals_info *refusals) {
    return ((unit != NULL) && (refusals != NULL)) ? etcs_unit_refusals_(unit, refusals) : (uint32_t)ETCS_UNIT_NULL_POINTER;
}

/** Writes the outcome of the bytes of a telegram, as etcs_unit_telegram accepts them, and of the groups that they close,
 * if they are the next input. Call it before etcs_unit_telegram, and keep the result until the release of that
 * input: until then it isn't on the medium. It changes nothing, and needs up to ETCS_STACK_BYTES_PREVIEW of stack. If
 * two groups close, it allocates a copy of what is known of the track, more than etcs_memory.h counts. Returns OK,
 * NOT_OPEN, OUT_OF_RANGE as etcs_unit_telegram, or NO_MEMORY if that memory is refused; `preview` is written only with
 * OK. */
static inline uint32_t etcs_unit_preview_telegram(etcs_unit *unit, const uint8_t *bytes, size_t len, etcs_unit_preview_info *preview) {
    return ((unit != NULL) && (bytes != NULL) && (preview != NULL)) ? etcs_unit_preview_telegram_(unit, bytes, len, preview) : (uint32_t)ETCS_UNIT_NULL_POINTER;
}

/** Writes the outcome of the group that a reading of the odometer closes, if it is the next input. Call it before
 * etcs_unit_odometer. Otherwise it is like etcs_unit_preview_telegram (ETCS_STACK_BYTES_PREVIEW), but allocates nothing. */
static inline uint32_t etcs_unit_preview_odometer(etcs_unit *unit, int64_t movement_cm, uint32_t speed_m_per_h, etcs_unit_preview_info *preview) {
    return ((unit != NULL) && (preview != NULL)) ? etcs_unit_preview_odometer_(unit, movement_cm, speed_m_per_h, preview) : (uint32_t)ETCS_UNIT_NULL_POINTER;
}

/** Closes the unit, or abandons its power-up, and frees its memory. Call it at the end, and after a failure before
 * etcs_unit_begin. This life loses pending inputs and outputs that are held back; the next one may find what was prepared.
 * Returns OK, or NOT_OPEN, which is allowed. */
static inline uint32_t etcs_unit_close(etcs_unit *unit) {
    return (unit != NULL) ? etcs_unit_close_(unit) : (uint32_t)ETCS_UNIT_NULL_POINTER;
}

/** Writes the request with this index, from 0, of those that make a medium of 1 + 6 * slots sectors an empty journal. Call it
 * for each index in turn, until it returns NO_SUCH_REQUEST; it needs no unit. IT DOESN'T KNOW WHAT THE MEDIUM HOLDS: carried out on
 * a journal, the requests lose all its events. So read the first sector before, and carry out none if etcs_image_facts
 * (etcs_image.h) returns OK for it. Returns OK, BAD_SLOTS, NO_SUCH_REQUEST after the last one, or NO_ROOM (fewer than
 * ETCS_UNIT_SECTOR bytes). */
ETCS_MUST_USE
static inline uint32_t etcs_unit_format_request(uint32_t slots, uint32_t index, etcs_unit_request_info *request, uint8_t *bytes, size_t room) {
    return ((request != NULL) && (bytes != NULL)) ? etcs_unit_format_request_(slots, index, request, bytes, room) : (uint32_t)ETCS_UNIT_NULL_POINTER;
}

/* ---- packets of a telegram that a unit does not use: this call needs no unit, allocates nothing, and keeps nothing */

/** Writes the packet with this index, from 0, of those of a telegram that a unit doesn't use, and why: in this mode (enum
 * etcs_mode), if the telegram's group is accepted and passed in this direction (enum etcs_direction). Call it to act on
 * packets that the unit doesn't obey, such as 132, 135 or 137; it uses all others. It needs up to
 * ETCS_STACK_BYTES_UNUSED of stack. Returns OK, END after the last one, or OUT_OF_RANGE if no mode or direction has the
 * number; it writes nothing unless it returns OK. */
ETCS_MUST_USE
static inline uint32_t etcs_telegram_unused(const uint8_t *bytes, size_t len, uint32_t mode, uint32_t direction, uint32_t index, etcs_packet_unused *packet) {
    return ((bytes != NULL) && (packet != NULL)) ? etcs_telegram_unused_(bytes, len, mode, direction, index, packet) : (uint32_t)ETCS_UNIT_NULL_POINTER;
}

#ifdef __cplusplus
}
#endif

#endif
