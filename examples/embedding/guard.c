/* Lets a guard hear a stop in Staff Responsible in each mode that may run (etcs_guard.h). */
#include "etcs_guard.h"

#include <stdio.h>

/* The guard's brake after a telegram in a mode, where the unit commands none. */
static uint32_t brake_after(const uint8_t *bytes, size_t len, uint32_t mode) {
    etcs_situation situation = {mode, ETCS_DIRECTION_NOMINAL, 0};
    etcs_guard guard = {0};
    uint32_t count, brake;
    if (etcs_guard_begin(&guard, ETCS_GUARD_STRICT) != ETCS_UNIT_OK
        || etcs_guard_hear(&guard, bytes, len, &situation, &count) != ETCS_UNIT_OK
        || etcs_guard_command(&guard, ETCS_BRAKE_NONE, &brake) != ETCS_UNIT_OK)
        brake = ETCS_BRAKE_EMERGENCY;
    return brake;
}

/* Each demand of a telegram, with its section of issue 2.3.0. */
static void list(const uint8_t *bytes, size_t len, uint32_t mode) {
    etcs_situation situation = {mode, ETCS_DIRECTION_NOMINAL, 0};
    etcs_demand demand;
    for (uint32_t i = 0; etcs_guard_demand(bytes, len, &situation, i, &demand) == ETCS_UNIT_OK; i++)
        printf("packet %u: %s, %u.%u.%u, %s\n", (unsigned)demand.packet, etcs_demanded_name(demand.demanded), (unsigned)demand.chapter,
               (unsigned)demand.section, (unsigned)demand.clause, etcs_sureness_name(demand.sureness));
}

/* A packet 137 for both directions with Q_SRSTOP 0. */
int main(void) {
    static const uint8_t stop[] = {0x90, 0x00, 0x7F, 0x80, 0x20, 0x01, 0x62, 0x60, 0x0C, 0x3F, 0xC0};
    static const uint32_t modes[] = {ETCS_FULL_SUPERVISION, ETCS_ON_SIGHT, ETCS_STAFF_RESPONSIBLE, ETCS_SHUNTING, ETCS_UNFITTED};
    for (size_t i = 0; i < sizeof modes / sizeof modes[0]; i++)
        printf("%s: %s\n", etcs_mode_name(modes[i]), etcs_brake_name(brake_after(stop, sizeof stop, modes[i])));
    list(stop, sizeof stop, ETCS_STAFF_RESPONSIBLE);
    return 0;
}
