/* The inputs of a life as lines of text, for the tests of the unit from C: `telegram HEX`, `odometer CM SPEED`, `clock MS`, `action N`,
 * `identity HEX`, `number N`, `train LENGTH MAXIMUM DECELERATION REACTION CATEGORY`. */
#ifndef INPUTS_H
#define INPUTS_H

#include <inttypes.h>
#include <stdio.h>

#include "etcs_unit.h"

static inline size_t bytes_of(const char *hex, uint8_t *bytes, size_t room) {
    size_t length = 0;
    unsigned byte;
    for (; hex[0] && hex[1] && length < room && sscanf(hex, "%2x", &byte) == 1; hex += 2)
        bytes[length++] = (uint8_t)byte;
    return length;
}

/* Hands in the input of a line. */
static inline uint32_t take(etcs_unit *unit, const char *line) {
    char hex[512];
    uint8_t bytes[256];
    int64_t movement;
    uint64_t moment;
    uint32_t number;
    etcs_train_data data;
    uint32_t *const to = (uint32_t *)&data; /* five numbers of 32 bits, in the order of the header */
    if (sscanf(line, "telegram %511s", hex) == 1)
        return etcs_unit_telegram(unit, bytes, bytes_of(hex, bytes, sizeof bytes));
    if (sscanf(line, "identity %511s", hex) == 1)
        return etcs_unit_identity(unit, bytes, bytes_of(hex, bytes, sizeof bytes));
    if (sscanf(line, "odometer %" SCNd64 " %" SCNu32, &movement, &number) == 2)
        return etcs_unit_odometer(unit, movement, number);
    if (sscanf(line, "clock %" SCNu64, &moment) == 1)
        return etcs_unit_clock(unit, moment);
    if (sscanf(line, "action %" SCNu32, &number) == 1)
        return etcs_unit_action(unit, number);
    if (sscanf(line, "number %" SCNu32, &number) == 1)
        return etcs_unit_running_number(unit, number);
    if (sscanf(line, "train %" SCNu32 " %" SCNu32 " %" SCNu32 " %" SCNu32 " %" SCNu32, &to[0], &to[1], &to[2], &to[3], &to[4]) == 5)
        return etcs_unit_train_data(unit, &data);
    return ETCS_UNIT_OUT_OF_RANGE;
}

#endif
