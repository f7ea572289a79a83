/* Two units in one process: by turns in one thread, and each in a thread of its own. Each medium holds in the end what it
 * holds where its unit is alone. */
#include <pthread.h>

#include "medium.h"

enum { SLOTS = 4, EVENTS = 400 };

/* One event of a life, which the number of the unit makes a life of its own. */
static uint32_t one(etcs_unit *unit, uint32_t which, uint32_t event) {
    return event % 3 == 0 ? etcs_unit_odometer(unit, 10 + which, 1000 + which) : etcs_unit_clock(unit, 7 * event + which);
}

typedef struct {
    medium on;
    etcs_unit unit;
    uint32_t which, status, released;
} life;

static life begun(uint32_t which) {
    life of = {formatted(SLOTS), {NULL, 0}, which, 0, 0};
    return of;
}

static void open_it(life *of) {
    of->status = powered_up(&of->on, &of->unit, ETCS_COLD_UNKNOWN);
}

static void go_on(life *of, uint32_t event) {
    etcs_unit_output outputs[ETCS_UNIT_OUTPUTS];
    uint32_t count = 0;
    if (of->status == ETCS_UNIT_OK)
        of->status = one(&of->unit, of->which, event);
    if (of->status == ETCS_UNIT_OK && event % 5 == 4)
        of->status = flushed(&of->on, &of->unit, outputs, &count);
    of->released += count;
}

static void *whole(void *at) {
    life *of = (life *)at;
    open_it(of);
    for (uint32_t event = 0; event < EVENTS; event++)
        go_on(of, event);
    etcs_unit_close(&of->unit);
    return NULL;
}

static void same(const char *what, life *found, life *wanted) {
    is(what, found->status, ETCS_UNIT_OK);
    is(what, found->released, EVENTS);
    is(what, found->released, wanted->released);
    is(what, (uint64_t)memcmp(found->on.bytes, wanted->on.bytes, wanted->on.len), 0);
    free(found->on.bytes);
}

int main(void) {
    life alone[2] = {begun(0), begun(1)}, turns[2] = {begun(0), begun(1)}, threads[2] = {begun(0), begun(1)};
    pthread_t at[2];
    for (int i = 0; i < 2; i++)
        whole(&alone[i]);
    is("the two lives differ", memcmp(alone[0].on.bytes, alone[1].on.bytes, alone[0].on.len) != 0, 1);
    open_it(&turns[0]);
    open_it(&turns[1]);
    for (uint32_t event = 0; event < EVENTS; event++) {
        go_on(&turns[0], event);
        go_on(&turns[1], event);
    }
    is("close", etcs_unit_close(&turns[0].unit), ETCS_UNIT_OK);
    is("the other one stays open", etcs_unit_clock(&turns[1].unit, UINT64_C(1) << 39), ETCS_UNIT_OK);
    is("close", etcs_unit_close(&turns[1].unit), ETCS_UNIT_OK);
    for (int i = 0; i < 2; i++)
        is("a thread", (uint64_t)pthread_create(&at[i], NULL, whole, &threads[i]), 0);
    for (int i = 0; i < 2; i++)
        is("its end", (uint64_t)pthread_join(at[i], NULL), 0);
    for (int i = 0; i < 2; i++) {
        same("by turns", &turns[i], &alone[i]);
        same("in threads", &threads[i], &alone[i]);
        free(alone[i].on.bytes);
    }
    return report("two units", 24);
}
