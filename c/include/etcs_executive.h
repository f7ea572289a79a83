/**
 * @file
 * A cyclic executive around one unit, for C99 and C++, with an operating system or without: conditions 10 to 13, 21 and 23
 * of docs/explain/integration.md as code. Link only the library of etcs_unit.h. It needs no memory but an
 * etcs_executive (8.3 kB), and that of the unit.
 *
 *     static etcs_executive executive;
 *     static const etcs_equipment equipment = {..};
 *
 *     if (etcs_executive_begin(&executive, &equipment, ETCS_COLD_UNKNOWN) == ETCS_UNIT_OK)
 *         while (etcs_executive_cycle(&executive) == ETCS_UNIT_OK)
 *             continue;
 *
 * A cycle waits until it is due, takes the inputs, prepares, carries out the requests, releases, obeys, and then feeds the
 * watchdog. It obeys the newest output with the most restrictive brake of all outputs that the cycle released, until the
 * next cycle that releases one. It opens a unit sector by sector, and holds no copy of the medium.
 *
 * A FAULT MEANS THE EMERGENCY BRAKE UNTIL etcs_executive_end AND A NEW etcs_executive_begin. A fault is any result of the
 * unit but OK, an input that could not be taken, a failed medium, a late cycle, or a stack overflow (enum
 * etcs_executive_fault). After a fault the executive takes no input, commands the emergency brake in each cycle, and no longer
 * feeds the watchdog.
 *
 * Ensure what etcs_unit.h requires, and:
 *
 * - one task makes all calls of an executive, or a lock orders them; other tasks and interrupts put their inputs into
 *   queues, which take_inputs empties;
 * - a watchdog with its own clock brakes if it isn't fed within two cycles: an executive that hangs can't brake;
 * - the moments of now_us come from a clock that keeps running while the program is stopped.
 */
#ifndef ETCS_EXECUTIVE_H
#define ETCS_EXECUTIVE_H

#include "etcs_unit.h"

#ifdef __cplusplus
extern "C" {
#endif

/** The greatest number of flushes in a cycle: so a cycle takes up to 64 inputs. */
#define ETCS_EXECUTIVE_FLUSHES 8

/** The greatest stack of each call below, in bytes, with that of the unit's calls; the stack of the equipment's functions comes
 * on top. */
#define ETCS_STACK_BYTES_EXECUTIVE 18432

/** The value of each byte of the guard below the stack. */
#define ETCS_STACK_PAINT 0xA5u

/** The faults of an executive that aren't results of the unit (enum etcs_unit_status). */
enum etcs_executive_fault {
    ETCS_EXECUTIVE_LATE = 301, /**< a cycle ended too late */
    ETCS_EXECUTIVE_STACK = 302 /**< the stack overflowed */
};

/** The functions of the equipment that the executive calls. Each gets `of`, those of the medium get `medium`. Functions that
 * return an int return 1, or 0 if they failed. */
typedef struct {
    void *of;           /**< passed to each function but those of the medium */
    void *medium;       /**< passed to the functions of the medium */
    uint64_t sectors;   /**< the number of sectors of the medium */
    uint64_t cycle_us;  /**< the length of a cycle */
    uint64_t late_us;   /**< a cycle is late if it ends this long after it was due, or longer */
    uint8_t *guard;     /**< the lowest bytes of the stack, or bytes below it that nothing else uses; NULL: the system guards it */
    size_t guard_bytes; /**< their number: more than any frame skips */

    /** Reads a sector, ETCS_UNIT_SECTOR bytes, from the medium itself. */
    int (*read_sector)(void *medium, uint64_t sector, uint8_t *bytes);
    /** Carries out a write or a sync, all of it, before it returns. */
    int (*carry_out)(void *medium, const etcs_unit_request_info *request, const uint8_t *bytes);
    /** Returns the moment now, in microseconds. */
    uint64_t (*now_us)(void *of);
    /** Returns at this moment, or at once if it is past. */
    void (*wait_until_us)(void *of, uint64_t moment_us);
    /** Passes the inputs of this cycle to the unit: a reading of the odometer, a moment of the clock, and any others.
     * Returns OK; PENDING_FULL if there are more, and it is called again after a flush; otherwise a fault. It corrects the
     * driver's mistakes itself (etcs_status_classify). */
    uint32_t (*take_inputs)(void *of, etcs_unit *unit);
    /** Sets the brake lines, and displays the other fields. */
    void (*obey)(void *of, const etcs_unit_output *command);
    /** Feeds the watchdog: called only after an output of this cycle was obeyed. */
    void (*feed)(void *of);
} etcs_equipment;

/** An executive. You may read its fields. */
typedef struct {
    const etcs_equipment *equipment; /**< the argument of etcs_executive_begin */
    etcs_unit unit;           /**< for etcs_unit_why and the like, from the task that runs the cycles */
    etcs_unit_output command; /**< the output that is obeyed */
    uint64_t cycles;          /**< the number of cycles until a fault */
    uint64_t due_us;          /**< when the next cycle is due */
    uint64_t longest_us;      /**< the longest time from when a cycle was due to its end */
    uint32_t fault;           /**< the first fault (enum etcs_unit_status or enum etcs_executive_fault), or OK */
    uint32_t released;        /**< the number of outputs that this cycle released */
    uint8_t bytes[ETCS_UNIT_REQUEST_BYTES]; /**< the bytes of the request that is being carried out */
} etcs_executive;

/** Returns the name of a fault, without ETCS_EXECUTIVE_ or ETCS_UNIT_; "unknown" for other numbers. */
static inline const char *etcs_executive_fault_name(uint32_t fault) {
    static const char *const names[] = {"LATE", "STACK"};
    return ((fault > 300u) && (fault < 303u)) ? names[fault - 301u] : etcs_status_name(fault);
}

/* Keeps the first fault: from then on the emergency brake is commanded, whatever was released. */
static inline void etcs_executive_fail_(etcs_executive *executive, uint32_t fault) {
    executive->fault = (executive->fault == (uint32_t)ETCS_UNIT_OK) ? fault : executive->fault;
    if (executive->fault != (uint32_t)ETCS_UNIT_OK) {
        executive->command.brake = (uint8_t)ETCS_BRAKE_EMERGENCY;
    }
}

/* ---- a flush */

/* Carries out one request on the medium, and reports it to the unit. */
static inline uint32_t etcs_executive_do_(etcs_executive *executive, const etcs_unit_request_info *request) {
    const etcs_equipment *const equipment = executive->equipment;
    const int is_read = request->kind == (uint64_t)ETCS_REQUEST_READ;
    if (((is_read != 0) ? equipment->read_sector(equipment->medium, request->sector, executive->bytes)
                        : equipment->carry_out(equipment->medium, request, executive->bytes)) == 0) {
        (void)etcs_unit_fail(&executive->unit);
        return (uint32_t)ETCS_UNIT_FAILED;
    }
    return (is_read != 0) ? etcs_unit_provide(&executive->unit, request->sector, executive->bytes, ETCS_UNIT_SECTOR)
                          : etcs_unit_done(&executive->unit);
}

/* Carries out the requests, one after the other, at power-up and in each flush. */
static inline uint32_t etcs_executive_carry_out_(etcs_executive *executive) {
    etcs_unit_request_info request;
    uint32_t status = (uint32_t)ETCS_UNIT_OK;
    while (status == (uint32_t)ETCS_UNIT_OK) {
        status = etcs_unit_request(&executive->unit, &request, executive->bytes, sizeof executive->bytes);
        status = (status == (uint32_t)ETCS_UNIT_OK) ? etcs_executive_do_(executive, &request) : status;
    }
    return (status == (uint32_t)ETCS_UNIT_NO_SUCH_REQUEST) ? (uint32_t)ETCS_UNIT_OK : status;
}

/* Carries out the list and releases: the newest output, with the most restrictive brake of the release. */
static inline uint32_t etcs_executive_release_(etcs_executive *executive) {
    etcs_unit_output outputs[ETCS_UNIT_OUTPUTS];
    uint32_t count = 0;
    uint32_t status = etcs_executive_carry_out_(executive);
    if (status == (uint32_t)ETCS_UNIT_OK) {
        status = etcs_unit_release(&executive->unit, outputs, ETCS_UNIT_OUTPUTS, &count);
    }
    if (status == (uint32_t)ETCS_UNIT_OK) {
        status = etcs_unit_command(outputs, count, &executive->command);
    }
    executive->released += (status == (uint32_t)ETCS_UNIT_OK) ? count : 0u;
    return status;
}

/* Takes the inputs and flushes them, again if there are more; commands the most restrictive brake of all flushes. */
static inline uint32_t etcs_executive_flush_(etcs_executive *executive) {
    const etcs_equipment *const equipment = executive->equipment;
    const uint32_t full = (uint32_t)ETCS_UNIT_PENDING_FULL;
    uint8_t strictest = (uint8_t)ETCS_BRAKE_NONE;
    uint32_t flushes = 0, taken, status;
    executive->released = 0;
    do {
        taken = equipment->take_inputs(equipment->of, &executive->unit);
        flushes++;
        status = ((taken == full) && (flushes < (uint32_t)ETCS_EXECUTIVE_FLUSHES)) ? (uint32_t)ETCS_UNIT_OK : taken;
        status = (status == (uint32_t)ETCS_UNIT_OK) ? etcs_unit_prepare(&executive->unit) : status;
        status = (status == (uint32_t)ETCS_UNIT_OK) ? etcs_executive_release_(executive) : status;
        strictest = (executive->command.brake > strictest) ? executive->command.brake : strictest;
    } while ((status == (uint32_t)ETCS_UNIT_OK) && (taken == full));
    executive->command.brake = strictest;
    return status;
}

/* ---- the checks of a cycle */

static inline void etcs_executive_paint_(const etcs_equipment *equipment) {
    volatile uint8_t *const guard = equipment->guard;
    for (size_t i = 0; (guard != NULL) && (i < equipment->guard_bytes); i++) {
        guard[i] = (uint8_t)ETCS_STACK_PAINT;
    }
}

static inline uint32_t etcs_executive_check_stack_(const etcs_equipment *equipment) {
    const volatile uint8_t *const guard = equipment->guard;
    uint32_t status = (uint32_t)ETCS_UNIT_OK;
    for (size_t i = 0; (guard != NULL) && (i < equipment->guard_bytes); i++) {
        status = (guard[i] == (uint8_t)ETCS_STACK_PAINT) ? status : (uint32_t)ETCS_EXECUTIVE_STACK;
    }
    return status;
}

static inline uint32_t etcs_executive_check_time_(etcs_executive *executive) {
    const etcs_equipment *const equipment = executive->equipment;
    const uint64_t now = equipment->now_us(equipment->of);
    const uint64_t took = (now > executive->due_us) ? (now - executive->due_us) : 0u;
    executive->longest_us = (took > executive->longest_us) ? took : executive->longest_us;
    return (took < equipment->late_us) ? (uint32_t)ETCS_UNIT_OK : (uint32_t)ETCS_EXECUTIVE_LATE;
}

/* ---- the calls */

/* The emergency brake, in Stand By, before the first output. */
static inline void etcs_executive_clear_(etcs_executive *executive, const etcs_equipment *equipment) {
    static const etcs_unit_output first = {0, 0, (uint8_t)ETCS_STAND_BY, (uint8_t)ETCS_LEVEL_INVALID,
                                           (uint8_t)ETCS_BRAKE_EMERGENCY, (uint8_t)ETCS_SHOWS_NOT_REVALIDATED};
    executive->equipment = equipment;
    executive->command = first;
    executive->cycles = 0;
    executive->longest_us = 0;
    executive->released = 0;
    executive->fault = (uint32_t)ETCS_UNIT_OK;
}

/** Powers up: obeys the emergency brake, paints the guard below the stack, opens the unit on the medium and carries out its
 * power-up. The first cycle is due one cycle later. Call it after each power-up, and after a fault and
 * etcs_executive_end, then with ETCS_COLD_UNKNOWN. The executive is all zeros before its first begin. Returns OK, or the
 * fault; if the unit is still open, IS_OPEN, and nothing has changed. Feeds the watchdog once before the first cycle. */
ETCS_MUST_USE
static inline uint32_t etcs_executive_begin(etcs_executive *executive, const etcs_equipment *equipment, uint32_t cold) {
    uint32_t status;
    if (executive->unit.is_open != 0u) {
        return (uint32_t)ETCS_UNIT_IS_OPEN;
    }
    etcs_executive_clear_(executive, equipment);
    equipment->obey(equipment->of, &executive->command);
    etcs_executive_paint_(equipment);
    status = etcs_unit_begin(&executive->unit, equipment->sectors, cold);
    status = (status == (uint32_t)ETCS_UNIT_OK) ? etcs_executive_release_(executive) : status;
    etcs_executive_fail_(executive, status);
    executive->due_us = equipment->now_us(equipment->of) + equipment->cycle_us;
    if (status == (uint32_t)ETCS_UNIT_OK) {
        equipment->feed(equipment->of);
    }
    return status;
}

/** Runs a cycle: waits until it is due, takes the inputs, flushes them, obeys, and feeds the watchdog if an output was
 * obeyed. Call it repeatedly after etcs_executive_begin, whatever it returns: after a fault
 * it only commands the emergency brake. Returns OK, or the first fault. */
ETCS_MUST_USE
static inline uint32_t etcs_executive_cycle(etcs_executive *executive) {
    const etcs_equipment *const equipment = executive->equipment;
    equipment->wait_until_us(equipment->of, executive->due_us);
    if (executive->fault == (uint32_t)ETCS_UNIT_OK) {
        executive->cycles++;
        etcs_executive_fail_(executive, etcs_executive_flush_(executive));
        etcs_executive_fail_(executive, etcs_executive_check_stack_(equipment));
        etcs_executive_fail_(executive, etcs_executive_check_time_(executive));
    }
    equipment->obey(equipment->of, &executive->command);
    if ((executive->fault == (uint32_t)ETCS_UNIT_OK) && (executive->released > 0u)) {
        equipment->feed(equipment->of);
    }
    executive->due_us += equipment->cycle_us;
    return executive->fault;
}

/** Commands the emergency brake, and closes the unit. Call it at the end, and after a fault before another begin. This life
 * loses inputs that weren't released. */
static inline void etcs_executive_end(etcs_executive *executive) {
    const etcs_equipment *const equipment = executive->equipment;
    executive->command.brake = (uint8_t)ETCS_BRAKE_EMERGENCY;
    equipment->obey(equipment->of, &executive->command);
    (void)etcs_unit_close(&executive->unit);
}

#ifdef __cplusplus
}
#endif

#endif
