/* The guard next to the unit through the calls of etcs_guard.h: telegrams by hand, as SUBSET-026, 7.4.2 and 8.4.2 lays
 * them out, what they demand in which mode, and wrong calls, after which nothing is written. tests/rows/test_guard.row
 * has each row of the table. */
#include "etcs_guard.h"
#include "medium.h"

/* Packet 137 with Q_SRSTOP 0 for both directions, and with Q_SRSTOP 1; the first in a telegram of version 2.0; N_PIG 1
 * with N_TOTAL 0 and Q_LINK 0. */
static const uint8_t stop[] = {0x90, 0x00, 0x7F, 0x80, 0x20, 0x01, 0x62, 0x60, 0x0C, 0x3F, 0xC0};
static const uint8_t go[] = {0x90, 0x00, 0x7F, 0x80, 0x20, 0x01, 0x62, 0x60, 0x0C, 0x7F, 0xC0};
static const uint8_t later[] = {0xA0, 0x00, 0x7F, 0x80, 0x20, 0x01, 0x62, 0x60, 0x0C, 0x3F, 0xC0};
static const uint8_t unlinked[] = {0x90, 0x10, 0x00, 0x00, 0x00, 0x00, 0x00};

static const etcs_demand blank = {9, 9, 9, 9, 9, 9, 9, 9, 9, 9};

/* A demand, or the status where there is none; with anything but OK nothing was written. */
static etcs_demand demand_of(const uint8_t *bytes, size_t len, etcs_situation situation, uint32_t index,
                             uint32_t wanted) {
    etcs_demand demand = blank;
    uint32_t status = etcs_guard_demand(bytes, len, &situation, index, &demand);
    is("status of a demand", status, wanted);
    if (status != (uint32_t)ETCS_UNIT_OK)
        is("nothing is written", (uint64_t)(memcmp(&demand, &blank, sizeof blank) != 0), 0);
    return demand;
}

static void demands(void) {
    etcs_situation sr = {ETCS_STAFF_RESPONSIBLE, ETCS_DIRECTION_NOT_KNOWN, 0},
                   fs = {ETCS_FULL_SUPERVISION, ETCS_DIRECTION_NOMINAL, 0};
    etcs_demand demand = demand_of(stop, sizeof stop, sr, 0, ETCS_UNIT_OK);
    is("demanded", demand.demanded, ETCS_DEMANDED_TRIP);
    is("finding", demand.finding, ETCS_FINDING_STOP_IN_STAFF_RESPONSIBLE);
    is("packet", demand.packet, 137);
    is("start", demand.start, 50);
    is("bits", demand.bits, 24);
    is("fault", demand.fault, 0);
    is("section", demand.chapter * 10000 + demand.section * 100 + demand.clause, 40603);
    is("sureness", demand.sureness, ETCS_SURE);
    (void)demand_of(stop, sizeof stop, sr, 1, ETCS_UNIT_END);
    (void)demand_of(stop, sizeof stop, fs, 0, ETCS_UNIT_END);
    (void)demand_of(go, sizeof go, sr, 0, ETCS_UNIT_END);
    demand = demand_of(later, sizeof later, fs, 0, ETCS_UNIT_OK);
    is("demanded of a later version", demand.demanded, ETCS_DEMANDED_TRIP);
    is("its packet", demand.packet, ETCS_NO_PACKET);
    is("its fault", demand.fault, ETCS_WRONG_VERSION);
    is("its bits", demand.bits, 0);
    is("its section", demand.chapter * 10000 + demand.section * 100 + demand.clause, 31700);
    demand = demand_of(stop, 0, fs, 0, ETCS_UNIT_OK);
    is("no bytes", demand.demanded, ETCS_DEMANDED_UNREADABLE);
}

static void wrong_numbers(void) {
    etcs_situation none[] = {{5, 0, 0}, {10, 0, 0}, {258, 0, 0},
                             {2, 3, 0}, {2, 0, 2},  {UINT32_MAX, UINT32_MAX, UINT32_MAX}};
    etcs_guard guard, before;
    uint32_t count = 77, brake = 77;
    is("begin", etcs_guard_begin(&guard, ETCS_GUARD_STRICT), ETCS_UNIT_OK);
    before = guard;
    for (size_t i = 0; i < sizeof none / sizeof none[0]; i++) {
        (void)demand_of(stop, sizeof stop, none[i], 0, ETCS_UNIT_OUT_OF_RANGE);
        is("hear", etcs_guard_hear(&guard, stop, sizeof stop, &none[i], &count), ETCS_UNIT_OUT_OF_RANGE);
    }
    for (uint32_t policy = 0; policy < 300; policy++)
        if (policy != 1 && policy != 2)
            is("begin with another policy", etcs_guard_begin(&guard, policy), ETCS_UNIT_OUT_OF_RANGE);
    is("command", etcs_guard_command(&guard, 3, &brake), ETCS_UNIT_OUT_OF_RANGE);
    is("the guard is as before", (uint64_t)(memcmp(&guard, &before, sizeof guard) != 0), 0);
    for (int field = 0; field < 3; field++) {
        etcs_situation sr = {ETCS_STAFF_RESPONSIBLE, ETCS_DIRECTION_NOT_KNOWN, 0};
        etcs_guard other = {field == 0 ? 3u : 1u, field == 1 ? 3u : 0u, field == 2 ? 2u : 0u};
        before = other;
        is("another guard hears", etcs_guard_hear(&other, stop, sizeof stop, &sr, &count), ETCS_UNIT_OUT_OF_RANGE);
        is("another guard is acknowledged", etcs_guard_acknowledge(&other, 0), ETCS_UNIT_OUT_OF_RANGE);
        is("another guard commands", etcs_guard_command(&other, 0, &brake), ETCS_UNIT_OUT_OF_RANGE);
        is("another guard is as before", (uint64_t)(memcmp(&other, &before, sizeof other) != 0), 0);
    }
    is("no count", count, 77);
    is("no brake", brake, 77);
}

static void null_pointers(void) {
    etcs_situation sr = {ETCS_STAFF_RESPONSIBLE, ETCS_DIRECTION_NOT_KNOWN, 0};
    etcs_guard guard = {1, 0, 0};
    etcs_demand demand = blank;
    uint32_t count = 77;
    is("begin", etcs_guard_begin(NULL, 1), ETCS_UNIT_NULL_POINTER);
    is("hear", etcs_guard_hear(NULL, stop, sizeof stop, &sr, &count), ETCS_UNIT_NULL_POINTER);
    is("hear", etcs_guard_hear(&guard, NULL, 0, &sr, &count), ETCS_UNIT_NULL_POINTER);
    is("hear", etcs_guard_hear(&guard, stop, sizeof stop, NULL, &count), ETCS_UNIT_NULL_POINTER);
    is("hear", etcs_guard_hear(&guard, stop, sizeof stop, &sr, NULL), ETCS_UNIT_NULL_POINTER);
    is("demand", etcs_guard_demand(NULL, 0, &sr, 0, &demand), ETCS_UNIT_NULL_POINTER);
    is("demand", etcs_guard_demand(stop, sizeof stop, NULL, 0, &demand), ETCS_UNIT_NULL_POINTER);
    is("demand", etcs_guard_demand(stop, sizeof stop, &sr, 0, NULL), ETCS_UNIT_NULL_POINTER);
    is("acknowledge", etcs_guard_acknowledge(NULL, 0), ETCS_UNIT_NULL_POINTER);
    is("command", etcs_guard_command(NULL, 0, &count), ETCS_UNIT_NULL_POINTER);
    is("command", etcs_guard_command(&guard, 0, NULL), ETCS_UNIT_NULL_POINTER);
    is("nothing is written",
       (uint64_t)(count != 77 || guard.has_heard != 0 || memcmp(&demand, &blank, sizeof blank) != 0), 0);
}

/* What the guard commands, where the unit commands a brake. */
static uint32_t commanded(const etcs_guard *guard, uint32_t unit) {
    uint32_t brake = 77;
    is("command", etcs_guard_command(guard, unit, &brake), ETCS_UNIT_OK);
    return brake;
}

static void a_guard(uint32_t policy) {
    etcs_situation sr = {ETCS_STAFF_RESPONSIBLE, ETCS_DIRECTION_NOT_KNOWN, 0};
    uint32_t count = 77, strict = policy == (uint32_t)ETCS_GUARD_STRICT;
    etcs_guard guard = {0};
    is("begin", etcs_guard_begin(&guard, policy), ETCS_UNIT_OK);
    is("has heard nothing", guard.has_heard, 0);
    is("hear", etcs_guard_hear(&guard, go, sizeof go, &sr, &count), ETCS_UNIT_OK);
    is("demands", count, 0);
    is("has heard", guard.has_heard, 1);
    is("nothing held", commanded(&guard, ETCS_BRAKE_NONE), ETCS_BRAKE_NONE);
    is("hear", etcs_guard_hear(&guard, unlinked, sizeof unlinked, &sr, &count), ETCS_UNIT_OK);
    is("demands", count, 1);
    is("service brake", commanded(&guard, ETCS_BRAKE_NONE), strict ? ETCS_BRAKE_SERVICE : ETCS_BRAKE_NONE);
    is("the unit's is stronger", commanded(&guard, ETCS_BRAKE_EMERGENCY), ETCS_BRAKE_EMERGENCY);
    is("hear", etcs_guard_hear(&guard, stop, sizeof stop, &sr, &count), ETCS_UNIT_OK);
    is("emergency brake", commanded(&guard, ETCS_BRAKE_SERVICE), strict ? ETCS_BRAKE_EMERGENCY : ETCS_BRAKE_SERVICE);
    is("acknowledged while moving", etcs_guard_acknowledge(&guard, 1), ETCS_UNIT_OK);
    is("is held", commanded(&guard, ETCS_BRAKE_NONE), strict ? ETCS_BRAKE_EMERGENCY : ETCS_BRAKE_NONE);
    is("acknowledged at standstill", etcs_guard_acknowledge(&guard, 0), ETCS_UNIT_OK);
    is("is released", commanded(&guard, ETCS_BRAKE_NONE), ETCS_BRAKE_NONE);
}

int main(void) {
    demands();
    wrong_numbers();
    null_pointers();
    a_guard(ETCS_GUARD_STRICT);
    a_guard(ETCS_GUARD_WARN);
    return report("guard", 412);
}
