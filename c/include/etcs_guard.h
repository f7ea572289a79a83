/**
 * @file
 * A guard next to the onboard unit (ERTMS/ETCS level 1, UNISIG SUBSET-026 issue 2.3.0). It finds what a train of that issue
 * stops for or obeys in a telegram, but the unit skips or refuses. For C, C++ and every language that can call C.
 *
 * Link with libetcs_unit.a or libetcs_unit.so, which `tools/library PREFIX` builds and installs with this header.
 *
 * Pass each telegram to the guard before you pass it to the unit, and merge the guard's brake with the unit's. The guard never
 * weakens the unit's brake, and does not affect the unit or its journal:
 *
 *     etcs_guard guard = {0};
 *     etcs_situation situation = {command.mode, ETCS_DIRECTION_NOMINAL, (command.indications & ETCS_SHOWS_OVERRIDDEN) != 0};
 *     uint32_t count, brake;
 *
 *     etcs_guard_begin(&guard, ETCS_GUARD_STRICT);                                (once, at each power-up)
 *     etcs_guard_hear(&guard, bytes, len, &situation, &count);                    (each telegram)
 *     etcs_guard_command(&guard, command.brake, &brake);                          (each output: obey `brake`)
 *     etcs_guard_acknowledge(&guard, speed_m_per_h);                              (the driver acknowledges)
 *
 * With ETCS_GUARD_STRICT a demand of a trip is the emergency brake, and one of the service brake the service brake, until the
 * driver acknowledges at standstill. With ETCS_GUARD_WARN demands are only reported. docs/explain/safety.md (45) and
 * crates/track_guard/README.md have the table of demands, with the reasons.
 *
 * The mode is that of the last output before the telegram. The direction is that in which the train passes the group: it is
 * nominal if, of two balises that are read, the one with the lower N_PIG came first; a single balise has the
 * Q_LINKORIENTATION of the packet 5 that announced it, or no known direction. Pass the same bytes as to the unit.
 *
 * A guard is a plain struct that you may copy and keep: no call allocates memory or holds a pointer. Each call returns,
 * whatever you pass, with a number of enum etcs_unit_status: OK, NULL_POINTER, END (etcs_guard_demand), or
 * OUT_OF_RANGE if a number is none of its enum, also in a guard that etcs_guard_begin didn't make. Unless it returns OK, a call
 * writes nothing. ANY RESULT BUT OK OR END MEANS THE EMERGENCY BRAKE.
 */
#ifndef ETCS_GUARD_H
#define ETCS_GUARD_H

#include "etcs_unit.h"

#ifdef __cplusplus
extern "C" {
#endif

/** In place of NID_PACKET: the whole telegram. */
#define ETCS_NO_PACKET 256

/** What the guard does with demands. You choose it. */
enum etcs_guard_policy {
    ETCS_GUARD_STRICT = 1, /**< it brakes until the driver acknowledges at standstill */
    ETCS_GUARD_WARN = 2    /**< it only reports */
};

/** What a telegram demands of the equipment around the unit. */
enum etcs_demanded {
    ETCS_DEMANDED_TRIP = 1,          /**< the emergency brake */
    ETCS_DEMANDED_SERVICE_BRAKE = 2, /**< the service brake */
    ETCS_DEMANDED_NOT_OBEYED = 3,    /**< the unit doesn't obey a packet that restricts: the equipment has to */
    ETCS_DEMANDED_UNREADABLE = 4     /**< the unit uses nothing of the telegram */
};

/** The rows of the table of demands (crates/track_guard/specs/Table.antt). */
enum etcs_finding {
    ETCS_FINDING_STOP_IN_STAFF_RESPONSIBLE = 1, /**< packet 137, unless Q_SRSTOP is 1 */
    ETCS_FINDING_DANGER_FOR_SHUNTING = 2,       /**< packet 132, unless Q_ASPECT is 1 */
    ETCS_FINDING_SHUNTING_BALISES = 3,          /**< packet 49 */
    ETCS_FINDING_STOP_SHUNTING = 4,             /**< packet 135 */
    ETCS_FINDING_REPOSITIONING = 5,             /**< packet 16 */
    ETCS_FINDING_CONDITIONAL_LEVEL = 6,         /**< packet 46 */
    ETCS_FINDING_AXLE_LOAD_SPEEDS = 7,          /**< packet 51 */
    ETCS_FINDING_ROUTE_SUITABILITY = 8,         /**< packet 70 */
    ETCS_FINDING_SLIPPERY_RAIL = 9,             /**< packet 71, unless M_ADHESION is 1 */
    ETCS_FINDING_ENDLESS_END_SPEED = 10,        /**< packet 12 whose V_LOA has no end */
    ETCS_FINDING_GREATER_VERSION = 11,          /**< M_VERSION from 32 on */
    ETCS_FINDING_SAME_VERSION = 12,             /**< M_VERSION 17 to 31 */
    ETCS_FINDING_LESSER_VERSION = 13,           /**< M_VERSION below 16 */
    ETCS_FINDING_REFUSED_UNLINKED = 14,         /**< refused for a fault after Q_MEDIA, with Q_LINK 0 */
    ETCS_FINDING_REFUSED = 15                   /**< refused otherwise */
};

/** How sure it is that issue 2.3.0 says so: the authors of the table had no copy of it. */
enum etcs_sureness {
    ETCS_SURE = 1,         /**< S */
    ETCS_FAIRLY_SURE = 2,  /**< F */
    ETCS_TO_BE_LOOKED_UP = 3 /**< B */
};

/** The situation of the train when it reads a telegram. */
typedef struct {
    uint32_t mode;       /**< enum etcs_mode, before the telegram */
    uint32_t direction;  /**< enum etcs_direction, in which the group is passed */
    uint32_t overridden; /**< 1 while an override is active, as the last output shows, otherwise 0 */
} etcs_situation;

/** A demand of a telegram: one row of the table that applies. */
typedef struct {
    uint32_t demanded; /**< enum etcs_demanded */
    uint32_t finding;  /**< enum etcs_finding */
    uint32_t packet;   /**< NID_PACKET; ETCS_NO_PACKET if the whole telegram is refused */
    uint32_t start;    /**< the place of the packet's first bit in the telegram, from 0 */
    uint32_t bits;     /**< its L_PACKET; 0 if the telegram is refused */
    uint32_t fault;    /**< enum etcs_fault of a telegram that is refused; 0 for a packet */
    uint32_t chapter;  /**< the chapter of SUBSET-026, issue 2.3.0: 4 in 4.6.3 */
    uint32_t section;  /**< the section: 6 in 4.6.3 */
    uint32_t clause;   /**< the clause: 3 in 4.6.3; 0 for the whole section */
    uint32_t sureness; /**< enum etcs_sureness */
} etcs_demand;

/** A guard. All zeros before etcs_guard_begin. */
typedef struct {
    uint32_t policy;    /**< enum etcs_guard_policy */
    uint32_t brake;     /**< the brake that it holds: enum etcs_brake */
    uint32_t has_heard; /**< 1 if it has heard a telegram since the power-up, otherwise 0 */
} etcs_guard;

ETCS_UNIT_ASSERT(sizeof(etcs_situation) == 12u && offsetof(etcs_situation, direction) == 4u && offsetof(etcs_situation, overridden) == 8u);
ETCS_UNIT_ASSERT(sizeof(etcs_demand) == 40u && offsetof(etcs_demand, packet) == 8u && offsetof(etcs_demand, fault) == 20u && offsetof(etcs_demand, sureness) == 36u);
ETCS_UNIT_ASSERT(sizeof(etcs_guard) == 12u && offsetof(etcs_guard, brake) == 4u && offsetof(etcs_guard, has_heard) == 8u);

/* ---- the exports of the library: the calls below test pointers first, and then call these */

uint32_t etcs_guard_begin_(etcs_guard *guard, uint32_t policy);
uint32_t etcs_guard_hear_(etcs_guard *guard, const uint8_t *bytes, uint64_t len, const etcs_situation *situation, uint32_t *count);
uint32_t etcs_guard_demand_(const uint8_t *bytes, uint64_t len, const etcs_situation *situation, uint32_t index, etcs_demand *demand);
uint32_t etcs_guard_acknowledge_(etcs_guard *guard, uint32_t speed_m_per_h);
uint32_t etcs_guard_command_(const etcs_guard *guard, uint32_t unit_brake, uint32_t *brake);

/* ---- the names of numbers */

/** Returns the name of a number of enum etcs_guard_policy; "unknown" for other numbers. */
static inline const char *etcs_guard_policy_name(uint32_t number) {
    static const char *const names[] = {NULL, "strict", "warn"};
    return etcs_name_(names, (uint32_t)(sizeof names / sizeof names[0]), number);
}

/** Returns the name of a number of enum etcs_demanded; "unknown" for other numbers. */
static inline const char *etcs_demanded_name(uint32_t number) {
    static const char *const names[] = {NULL, "trip", "service_brake", "not_obeyed", "unreadable"};
    return etcs_name_(names, (uint32_t)(sizeof names / sizeof names[0]), number);
}

/** Returns the name of a number of enum etcs_finding; "unknown" for other numbers. */
static inline const char *etcs_finding_name(uint32_t number) {
    static const char *const names[] = {
        NULL, "stop_in_staff_responsible", "danger_for_shunting", "shunting_balises", "stop_shunting", "repositioning",
        "conditional_level", "axle_load_speeds", "route_suitability", "slippery_rail", "endless_end_speed", "greater_version",
        "same_version", "lesser_version", "refused_unlinked", "refused"
    };
    return etcs_name_(names, (uint32_t)(sizeof names / sizeof names[0]), number);
}

/** Returns the name of a number of enum etcs_sureness; "unknown" for other numbers. */
static inline const char *etcs_sureness_name(uint32_t number) {
    static const char *const names[] = {NULL, "sure", "fairly_sure", "to_be_looked_up"};
    return etcs_name_(names, (uint32_t)(sizeof names / sizeof names[0]), number);
}

/* ---- the calls */

/** Initializes the guard for a power-up, with a policy (enum etcs_guard_policy): it holds no brake, and has heard no telegram.
 * Returns OK, or OUT_OF_RANGE. */
ETCS_MUST_USE
static inline uint32_t etcs_guard_begin(etcs_guard *guard, uint32_t policy) {
    return (guard != NULL) ? etcs_guard_begin_(guard, policy) : (uint32_t)ETCS_UNIT_NULL_POINTER;
}

/** Hears a telegram, and writes to `count` the number of its demands in this situation (etcs_guard_demand returns each). Call it
 * before you pass the telegram to the unit. Returns OK, or OUT_OF_RANGE. */
ETCS_MUST_USE
static inline uint32_t etcs_guard_hear(etcs_guard *guard, const uint8_t *bytes, size_t len, const etcs_situation *situation, uint32_t *count) {
    return ((guard != NULL) && (bytes != NULL) && (situation != NULL) && (count != NULL))
               ? etcs_guard_hear_(guard, bytes, len, situation, count)
               : (uint32_t)ETCS_UNIT_NULL_POINTER;
}

/** Writes the demand with this index, from 0, of a telegram in a situation: first that of the whole telegram if the unit refuses
 * it, then those of its packets, in their order. Returns OK, END after the last one, or OUT_OF_RANGE. */
ETCS_MUST_USE
static inline uint32_t etcs_guard_demand(const uint8_t *bytes, size_t len, const etcs_situation *situation, uint32_t index, etcs_demand *demand) {
    return ((bytes != NULL) && (situation != NULL) && (demand != NULL)) ? etcs_guard_demand_(bytes, len, situation, index, demand)
                                                                        : (uint32_t)ETCS_UNIT_NULL_POINTER;
}

/** Notes that the driver acknowledges at this speed: at 0 the guard releases its brake, otherwise nothing changes. Returns OK, or
 * OUT_OF_RANGE. */
ETCS_MUST_USE
static inline uint32_t etcs_guard_acknowledge(etcs_guard *guard, uint32_t speed_m_per_h) {
    return (guard != NULL) ? etcs_guard_acknowledge_(guard, speed_m_per_h) : (uint32_t)ETCS_UNIT_NULL_POINTER;
}

/** Writes the brake to obey if the unit commands `unit_brake` (both enum etcs_brake): the stronger one of the unit's and
 * the guard's. Returns OK, or OUT_OF_RANGE. */
ETCS_MUST_USE
static inline uint32_t etcs_guard_command(const etcs_guard *guard, uint32_t unit_brake, uint32_t *brake) {
    return ((guard != NULL) && (brake != NULL)) ? etcs_guard_command_(guard, unit_brake, brake) : (uint32_t)ETCS_UNIT_NULL_POINTER;
}

#ifdef __cplusplus
}
#endif

#endif
