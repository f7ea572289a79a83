/* Lives of one unit over one medium, for programs that ask the unit before and after its inputs and print JSON, an
 * object per line. Standard input has a line for each `power-up COLD` (the first line is one), input (inputs.h) and
 * `flush`; an eighth pending input flushes too. */
#ifndef LIVES_H
#define LIVES_H

#include "inputs.h"
#include "medium.h"

/* What is asked, or NULL. */
typedef struct {
    void (*before_input)(etcs_unit *unit, const char *line);
    void (*while_pending)(etcs_unit *unit); /* after each input, before each request, and before the release */
    void (*after_release)(const medium *on, etcs_unit *unit,
                          const etcs_unit_output *last); /* (a power-up has no last output) */
} questions;

/* Carries out the requests one by one, and releases. */
static inline void release_asked(medium *on, etcs_unit *unit, const questions *ask) {
    etcs_unit_output outputs[ETCS_UNIT_OUTPUTS];
    etcs_unit_request_info request;
    uint8_t bytes[ETCS_UNIT_REQUEST_BYTES];
    uint32_t count = 0;
    while (etcs_unit_request(unit, &request, bytes, sizeof bytes) == ETCS_UNIT_OK) {
        if (ask->while_pending)
            ask->while_pending(unit);
        is("done", do_request(on, unit, &request, bytes), ETCS_UNIT_OK);
    }
    if (ask->while_pending)
        ask->while_pending(unit);
    is("release", etcs_unit_release(unit, outputs, ETCS_UNIT_OUTPUTS, &count), ETCS_UNIT_OK);
    if (ask->after_release)
        ask->after_release(on, unit, count > 0 ? &outputs[count - 1] : NULL);
}

/* Runs the lives, prints how many answers were tried, and returns the exit status. */
static inline int run_lives(const questions *ask) {
    char line[1024];
    etcs_unit unit = {0};
    medium on = formatted(64);
    unsigned cold, pending = 0;
    while (fgets(line, sizeof line, stdin)) {
        const int flushes = strcmp(line, "flush\n") == 0;
        if (sscanf(line, "power-up %u", &cold) == 1) {
            (void)etcs_unit_close(&unit);
            is("open", etcs_unit_open(&unit, on.bytes, on.len, cold), ETCS_UNIT_OK);
            release_asked(&on, &unit, ask);
            pending = 0;
        } else if (!flushes) {
            if (ask->before_input)
                ask->before_input(&unit, line);
            is(line, take(&unit, line), ETCS_UNIT_OK);
            if (ask->while_pending)
                ask->while_pending(&unit);
            pending++;
        }
        if (pending == 8 || (pending > 0 && flushes)) {
            is("prepare", etcs_unit_prepare(&unit), ETCS_UNIT_OK);
            release_asked(&on, &unit, ask);
            pending = 0;
        }
    }
    (void)etcs_unit_close(&unit);
    free(on.bytes);
    printf("{\"tried\":%u}\n", tried);
    return wrong > 0;
}

#endif
