/* Tests c/include/etcs_executive.h: what it calls and in which order, what is obeyed, each fault and how long it holds.
 *
 * With OWN_MEMORY over a library that takes memory from a buffer, with AS_SOURCE too over the C source. */
#include "etcs_executive.h"
#include "medium.h"
#ifdef OWN_MEMORY
#include "etcs_memory.h"
#ifdef AS_SOURCE
#define MORE ETCS_MEMORY_OF_SOURCE
#else
#define MORE 0
#endif
static uint8_t memory[MORE + ETCS_MEMORY_BYTES(16, 32, 100, 100)];
#endif

enum { SLOTS = 8, CYCLE_US = 100000, LATE_US = 50000 };

/* ---- equipment whose calls are noted, and may fail */

static medium on;
static etcs_executive executive;
static uint8_t guard[64];
static char calls[1000]; /* a letter for each call; of the medium's only the first one in a row */
static uint64_t now, takes_us, inputs, more, fails_at, medium_calls;
static uint32_t answer;
static etcs_unit_output obeyed;

static void note(char call) {
    const size_t len = strlen(calls);
    if ((len > 0 && calls[len - 1] == call && call == 'M') || len + 1 == sizeof calls)
        return;
    calls[len] = call;
    calls[len + 1] = 0;
}

static int fails(void) {
    note('M');
    return fails_at > 0 && ++medium_calls == fails_at;
}

static int read_sector(void *of, uint64_t sector, uint8_t *bytes) {
    memcpy(bytes, sector_of((medium *)of, sector), ETCS_UNIT_SECTOR);
    return !fails();
}

static int does_request(void *of, const etcs_unit_request_info *request, const uint8_t *bytes) {
    if (fails())
        return 0;
    do_on((medium *)of, request, bytes);
    return 1;
}

static uint64_t now_us(void *of) {
    (void)of;
    return now;
}

static void wait_until_us(void *of, uint64_t moment_us) {
    (void)of;
    note('W');
    now = moment_us;
}

/* As many clocks as are wanted. */
static uint32_t take_inputs(void *of, etcs_unit *unit) {
    (void)of;
    note('I');
    now += takes_us;
    if (answer != ETCS_UNIT_OK)
        return answer;
    for (uint64_t i = 0; i < inputs; i++)
        is("an input", etcs_unit_clock(unit, now / 1000), ETCS_UNIT_OK);
    if (more == 0)
        return ETCS_UNIT_OK;
    more--;
    return ETCS_UNIT_PENDING_FULL;
}

static void obey(void *of, const etcs_unit_output *command) {
    (void)of;
    note('O');
    obeyed = *command;
}

static void feed(void *of) {
    (void)of;
    note('F');
}

static etcs_equipment equipment;

static uint32_t begins(void) {
    calls[0] = 0;
    answer = ETCS_UNIT_OK;
    takes_us = more = fails_at = medium_calls = 0;
    inputs = 1;
    return etcs_executive_begin(&executive, &equipment, ETCS_COLD_UNKNOWN);
}

/* A cycle, and what it called. */
static void cycles(const char *what, uint32_t fault, const char *called) {
    calls[0] = 0;
    is(what, etcs_executive_cycle(&executive), fault);
    if (strcmp(calls, called) != 0)
        printf("%s: called %s, wanted %s\n", what, calls, called);
    is(what, strcmp(calls, called) == 0, 1);
}

/* A fault: the cycle in which it comes, and the next one, which takes nothing, obeys the emergency brake and doesn't feed; and another begin. */
static void holds(const char *what, uint32_t fault, const char *called) {
    cycles(what, fault, called);
    is(what, obeyed.brake, ETCS_BRAKE_EMERGENCY);
    answer = ETCS_UNIT_OK;
    takes_us = fails_at = 0;
    cycles("a cycle after a fault", fault, "WO");
    is("its brake", obeyed.brake, ETCS_BRAKE_EMERGENCY);
    is("a begin without an end", etcs_executive_begin(&executive, &equipment, ETCS_COLD_UNKNOWN), ETCS_UNIT_IS_OPEN);
    etcs_executive_end(&executive);
    is("another begin", begins(), ETCS_UNIT_OK);
    cycles("a cycle after it", ETCS_UNIT_OK, "WIMOF");
}

static void orders(void) {
    is("the first begin", begins(), ETCS_UNIT_OK);
    is("its calls", strcmp(calls, "OMF") == 0, 1);
    is("the brake of it", obeyed.brake, ETCS_BRAKE_EMERGENCY);
    cycles("a cycle", ETCS_UNIT_OK, "WIMOF");
    is("its event", obeyed.event, 1);
    inputs = 0;
    cycles("a cycle without inputs", ETCS_UNIT_OK, "WIO");
    is("its event", obeyed.event, 1);
    inputs = 8, more = 2;
    cycles("a cycle of 24 inputs", ETCS_UNIT_OK, "WIMIMIMOF");
    is("its event", obeyed.event, 25);
    is("its outputs", executive.released, 24);
    inputs = 1, more = ETCS_EXECUTIVE_FLUSHES;
    holds("a cycle whose inputs have no end", ETCS_UNIT_PENDING_FULL, "WIMIMIMIMIMIMIMIO");
}

static void faults(void) {
    takes_us = LATE_US - 1;
    cycles("a cycle that is nearly late", ETCS_UNIT_OK, "WIMOF");
    is("its time", executive.longest_us, LATE_US - 1);
    takes_us = LATE_US;
    holds("a late cycle", ETCS_EXECUTIVE_LATE, "WIMO");
    answer = ETCS_UNIT_OUT_OF_RANGE;
    holds("a reading that isn't taken", ETCS_UNIT_OUT_OF_RANGE, "WIO");
    fails_at = 1;
    holds("a medium that fails", ETCS_UNIT_FAILED, "WIMO");
    for (unsigned i = 0; i < sizeof guard; i += sizeof guard - 1) {
        guard[i] = 0;
        holds("a stack beyond its end", ETCS_EXECUTIVE_STACK, "WIMO");
    }
    etcs_executive_end(&executive);
    is("the brake of an end", obeyed.brake, ETCS_BRAKE_EMERGENCY);
}

/* Each call on the medium during a power-up fails once: no unit is open where it couldn't be read, and none is fed. */
static void power_ups(void) {
    uint64_t failed = 0;
    for (uint64_t call = 1; call < 1000; call++) {
        (void)begins();
        etcs_executive_end(&executive);
        calls[0] = 0;
        medium_calls = 0;
        fails_at = call;
        const uint32_t fault = etcs_executive_begin(&executive, &equipment, ETCS_COLD_UNKNOWN);
        const int is_fed = strchr(calls, 'F') != NULL;
        fails_at = 0;
        if (fault == ETCS_UNIT_OK)
            break;
        failed++;
        is("a power-up that fails", fault, ETCS_UNIT_FAILED);
        is("is not fed", (uint64_t)is_fed, 0);
        cycles("a cycle after it", ETCS_UNIT_FAILED, "WO");
        is("its brake", obeyed.brake, ETCS_BRAKE_EMERGENCY);
        etcs_executive_end(&executive);
    }
    is("power-ups that fail", failed > 10, 1);
    etcs_executive_end(&executive);
}

/* Of two releases of one cycle the most restrictive brake holds, though the newest output is another one. */
static uint32_t runs_too_fast(void *of, etcs_unit *unit) {
    static const uint8_t authority[] = {0x90, 0x00, 0x7F, 0x80, 0x20, 0x01, 0x43, 0x20, 0x24, 0xA8, 0x00, 0x7F, 0xE0, 0x07, 0xD0, 0x02,
                                        0xB0, 0x0D, 0x90, 0x00, 0x10, 0x00, 0x0D, 0xC0, 0x3A, 0x40, 0x00, 0x20, 0x80, 0x1F, 0xE0};
    const etcs_train_data data = {20000, 160000, 70, 0, 15};
    (void)of;
    switch (executive.cycles * 10 + more) {
    case 10:
        is("an authority", etcs_unit_telegram(unit, authority, sizeof authority), ETCS_UNIT_OK);
        is("an identity", etcs_unit_identity(unit, (const uint8_t *)"A", 1), ETCS_UNIT_OK);
        is("a level", etcs_unit_action(unit, ETCS_CHOOSE_LEVEL_1), ETCS_UNIT_OK);
        is("train data", etcs_unit_train_data(unit, &data), ETCS_UNIT_OK);
        is("a start", etcs_unit_action(unit, ETCS_START), ETCS_UNIT_OK);
        break;
    case 31:
        is("too fast", etcs_unit_odometer(unit, 100, 200000), ETCS_UNIT_OK);
        more = 0;
        return ETCS_UNIT_PENDING_FULL;
    default:
        is("standstill", etcs_unit_odometer(unit, 0, 0), ETCS_UNIT_OK);
        break;
    }
    return ETCS_UNIT_OK;
}

static void brakes(void) {
    static const uint8_t wanted[] = {ETCS_BRAKE_EMERGENCY, ETCS_BRAKE_NONE, ETCS_BRAKE_EMERGENCY, ETCS_BRAKE_NONE};
    equipment.take_inputs = runs_too_fast;
    is("a begin", begins(), ETCS_UNIT_OK);
    for (unsigned i = 0; i < 4; i++) {
        more = i == 2;
        is("a cycle", etcs_executive_cycle(&executive), ETCS_UNIT_OK);
        is("its brake", obeyed.brake, wanted[i]);
    }
    etcs_executive_end(&executive);
}

int main(void) {
#ifdef OWN_MEMORY
    if (etcs_memory_use(memory, sizeof memory) != ETCS_UNIT_OK)
        return 2;
#endif
    on = formatted(SLOTS);
    equipment.medium = &on;
    equipment.sectors = 1 + 6 * SLOTS;
    equipment.cycle_us = CYCLE_US;
    equipment.late_us = LATE_US;
    equipment.guard = guard;
    equipment.guard_bytes = sizeof guard;
    equipment.read_sector = read_sector;
    equipment.carry_out = does_request;
    equipment.now_us = now_us;
    equipment.wait_until_us = wait_until_us;
    equipment.take_inputs = take_inputs;
    equipment.obey = obey;
    equipment.feed = feed;
    orders();
    faults();
    power_ups();
    brakes();
    static const char *const names[] = {"unknown", "LATE", "STACK", "unknown"};
    for (uint32_t i = 0; i < 4; i++)
        is("a name", (uint64_t)strcmp(etcs_executive_fault_name(300 + i), names[i]), 0);
    is("the name of an answer", (uint64_t)strcmp(etcs_executive_fault_name(ETCS_UNIT_FAILED), "FAILED"), 0);
    free(on.bytes);
    return report("executive", 290);
}
