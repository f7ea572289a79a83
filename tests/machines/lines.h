/* Lines of a script, and answers, without a C library (platform.h has where they come from and go). */
#ifndef LINES_H
#define LINES_H

#include "etcs_unit.h"
#include "platform.h"

static char line[1024];
static const char *at;

/* ---- answers */

static inline void put(const char *text) {
    while (*text != 0)
        put_char(*text++);
}

static inline void put_number(uint64_t number, unsigned base) {
    char digits[24];
    unsigned count = 0;
    do {
        digits[count++] = "0123456789abcdef"[number % base];
        number /= base;
    } while (number > 0);
    while (count > 0)
        put_char(digits[--count]);
}

/* ---- lines */

static inline int read_line(void) {
    unsigned length = 0;
    int byte;
    while ((byte = next_char()) > 0 && byte != '\n')
        if (length + 1 < sizeof line)
            line[length++] = (char)byte;
    line[length] = 0;
    at = line;
    return byte > 0 || length > 0;
}

/* Whether the line's next word is this one; then it is passed. */
static inline int word(const char *wanted) {
    const char *here = at;
    while (*wanted != 0)
        if (*here++ != *wanted++)
            return 0;
    if (*here != 0 && *here != ' ')
        return 0;
    at = *here == ' ' ? here + 1 : here;
    return 1;
}

/* The next number of the line, modulo 2^64. */
static inline uint64_t number(void) {
    uint64_t found = 0;
    const int is_negative = *at == '-';
    if (is_negative)
        at++;
    while (*at >= '0' && *at <= '9')
        found = 10 * found + (uint64_t)(*at++ - '0');
    if (*at == ' ')
        at++;
    return is_negative ? 0 - found : found;
}

static inline unsigned digit(char of) {
    return of >= 'a' ? (unsigned)(of - 'a') + 10 : of >= 'A' ? (unsigned)(of - 'A') + 10 : (unsigned)(of - '0');
}

static inline size_t bytes_of_line(uint8_t *bytes, size_t room) {
    size_t length = 0;
    for (; at[0] > ' ' && at[1] > ' ' && length < room; at += 2)
        bytes[length++] = (uint8_t)(16 * digit(at[0]) + digit(at[1]));
    return length;
}

/* ---- inputs */

/* An input, read from its line before it is handed in. */
typedef struct {
    enum { NO_INPUT, TELEGRAM, ODOMETER, CLOCK, ACTION, IDENTITY, RUNNING_NUMBER, TRAIN } kind;
    uint8_t bytes[256];
    size_t length;
    int64_t movement;
    uint64_t moment;
    uint32_t number;
    etcs_train_data train;
} input;

static inline etcs_train_data train_of_line(void) {
    etcs_train_data data;
    data.length_cm = (uint32_t)number();
    data.maximum_m_per_h = (uint32_t)number();
    data.deceleration_cm_per_s2 = (uint32_t)number();
    data.reaction_ms = (uint32_t)number();
    data.category = (uint32_t)number();
    return data;
}

/* Whether the line is an input; then it is read. */
static inline int read_input(input *in) {
    in->kind = word("telegram") ? TELEGRAM : word("odometer") ? ODOMETER : word("clock") ? CLOCK : word("action") ? ACTION
        : word("identity") ? IDENTITY : word("number") ? RUNNING_NUMBER : word("train") ? TRAIN : NO_INPUT;
    if (in->kind == TELEGRAM || in->kind == IDENTITY)
        in->length = bytes_of_line(in->bytes, sizeof in->bytes);
    else if (in->kind == TRAIN)
        in->train = train_of_line();
    else if (in->kind == CLOCK)
        in->moment = number();
    else if (in->kind == ODOMETER)
        in->movement = (int64_t)number();
    if (in->kind == ODOMETER || in->kind == ACTION || in->kind == RUNNING_NUMBER)
        in->number = (uint32_t)number();
    return in->kind != NO_INPUT;
}

static inline uint32_t hand_in(etcs_unit *unit, const input *in) {
    switch (in->kind) {
    case TELEGRAM: return etcs_unit_telegram(unit, in->bytes, in->length);
    case ODOMETER: return etcs_unit_odometer(unit, in->movement, in->number);
    case CLOCK: return etcs_unit_clock(unit, in->moment);
    case ACTION: return etcs_unit_action(unit, in->number);
    case IDENTITY: return etcs_unit_identity(unit, in->bytes, in->length);
    case RUNNING_NUMBER: return etcs_unit_running_number(unit, in->number);
    case TRAIN: return etcs_unit_train_data(unit, &in->train);
    default: return ETCS_UNIT_OUT_OF_RANGE;
    }
}

#endif
