/* The executive on a board without an operating system and without a C library: QEMU's `virt`, 64 bits of ARM. Memory is a
 * buffer, the journal is in memory that survives a loss of power, and the commands go to the serial line.
 *
 * A cycle of 100 ms, by the board's timer: the odometer, the clock, and what the driver does. The watchdog is fed once the
 * command of a cycle is obeyed: a program that stops and an exception mean the emergency brake, and so does each fault of the
 * executive, as a late cycle or a stack that went beyond its end. The train is simulated: it gets authorities of 1,000 m, and
 * doesn't heed them. Power is lost again and again, while any byte is written; the next life goes on from the medium, with the
 * train where it is. */
#include "board.h"
#include "etcs_executive.h"
#include "etcs_image.h"
#include "etcs_memory.h"

/* How many cycles all lives have together, and how many there are until power is lost, at most. */
#ifndef CYCLES
#define CYCLES 3000
#define LIFE_CYCLES 1200
#endif

enum { CYCLE_MS = 100, LATE_MS = 50, WATCHDOG_MS = 200, SLOTS = 64, SECTORS = 1 + 6 * SLOTS, CYCLE_BYTES = 3584 };

/* What the unit may take: groups of at most 16 packets, 32 restrictions, 100 gradients, 100 static speeds at once. Whatever
 * the slots, it holds 16 sectors. */
static _Alignas(16) uint8_t memory[ETCS_MEMORY_BYTES(16, 32, 100, 100)];
static etcs_executive executive;

/* The medium: memory that keeps what it has where power is lost, and whose reads can't fail. Equipment has a driver of a
 * flash in its place; examples/embedding/flash.c shows what to do where a read fails. */
static uint8_t (*const medium)[ETCS_UNIT_SECTOR] = (uint8_t (*)[ETCS_UNIT_SECTOR])UINT64_C(0x4A000000);

/* What goes on without the board: the train, and when power is lost. (QEMU's memory is zeros at first.) */
static struct {
    uint64_t lives, cycles, longest_us, random;
    uint64_t bytes_left;    /* that are written until power is lost */
    uint64_t newest;        /* the newest event of all lives whose output was obeyed */
    int64_t rest;           /* what of a movement is no whole centimetre, in 1/36,000 cm: it goes into the next reading */
    uint32_t speed_m_per_h;
    uint8_t brake;
} *const world = (void *)UINT64_C(0x4B000000);

/* ---- the serial line */

static void say(const char *text) {
    while (*text != 0) {
        board_put(*text++);
    }
}

static void say_number(uint64_t number, const char *text) {
    char digits[20];
    unsigned count = 0;
    do {
        digits[count++] = (char)('0' + (number % 10u));
        number /= 10u;
    } while (number > 0u);
    while (count > 0u) {
        board_put(digits[--count]);
    }
    say(text);
}

/* What the watchdog and each exception end in. */
void board_brake(void) {
    say(board_was_late() ? "emergency brake: the watchdog wasn't fed\n" : "emergency brake: an exception\n");
}

/* ---- the medium */

static int read_sector(void *unused, uint64_t sector, uint8_t *bytes) {
    (void)unused;
    for (unsigned i = 0; i < ETCS_UNIT_SECTOR; i++) {
        bytes[i] = medium[sector][i];
    }
    return 1;
}

/* Carries out one request; 0 where the medium failed. A sync waits until all that was written is kept: here it is. */
static int carry_out(void *unused, const etcs_unit_request_info *request, const uint8_t *bytes) {
    (void)unused;
    if ((request->kind == ETCS_REQUEST_WRITE) && ((request->sector + request->sectors) > SECTORS)) {
        return 0;
    }
    for (uint64_t i = 0; i < (request->sectors * ETCS_UNIT_SECTOR); i++) {
        if (--world->bytes_left == 0u) {
            board_reset();
        }
        medium[request->sector][i] = bytes[i];
    }
    return 1;
}

/* Makes the medium an empty journal where it has none: a format of one would lose its events. */
static uint32_t make_journal(void) {
    etcs_unit_request_info request;
    etcs_image facts;
    uint32_t index = 0, status;
    if (etcs_image_facts(medium[0], ETCS_UNIT_SECTOR, &facts) == ETCS_UNIT_OK) {
        return ETCS_UNIT_OK;
    }
    while ((status = etcs_unit_format_request(SLOTS, index, &request, executive.bytes, sizeof executive.bytes)) == ETCS_UNIT_OK) {
        if (carry_out(NULL, &request, executive.bytes) == 0) {
            return ETCS_UNIT_FAILED;
        }
        index++;
    }
    return (status == ETCS_UNIT_NO_SUCH_REQUEST) ? (uint32_t)ETCS_UNIT_OK : status;
}

/* ---- the train */

/* Its movement in one cycle, in whole centimetres: it pulls with 0.5 m/s^2, and slows with 0.7 and 1. */
static int64_t moved(void) {
    static const int64_t gained[] = {180, -252, -360}; /* m/h in 100 ms */
    const int64_t speed = (int64_t)world->speed_m_per_h + gained[world->brake];
    world->speed_m_per_h = (speed < 0) ? 0u : ((speed > 100000) ? 100000u : (uint32_t)speed);
    const int64_t way = ((int64_t)world->speed_m_per_h * CYCLE_MS) + world->rest;
    world->rest = way % 36000;
    return way / 36000;
}

/* The driver makes the train ready, and a group gives the authority. */
static uint32_t make_ready(etcs_unit *unit) {
    static const uint8_t authority[] = {0x90, 0x00, 0x7F, 0x80, 0x20, 0x01, 0x43, 0x20, 0x24, 0xA8, 0x00, 0x7F, 0xE0, 0x07, 0xD0, 0x02,
                                        0xB0, 0x0D, 0x90, 0x00, 0x10, 0x00, 0x0D, 0xC0, 0x3A, 0x40, 0x00, 0x20, 0x80, 0x1F, 0xE0};
    /* 200 m, 160 km/h, 0.7 m/s^2, brakes that act at once (no real ones do: docs/explain/integration.md, 7), and no category */
    static const etcs_train_data data = {20000, 160000, 70, 0, ETCS_CATEGORY_NONE};
    uint32_t status = etcs_unit_telegram(unit, authority, sizeof authority);
    if (status == ETCS_UNIT_OK) {
        status = etcs_unit_identity(unit, (const uint8_t *)"IC 704", 6);
    }
    if (status == ETCS_UNIT_OK) {
        status = etcs_unit_action(unit, ETCS_CHOOSE_LEVEL_1);
    }
    if (status == ETCS_UNIT_OK) {
        status = etcs_unit_train_data(unit, &data);
    }
    return (status == ETCS_UNIT_OK) ? etcs_unit_action(unit, ETCS_START) : status;
}

/* ---- what the executive calls: these, and the board's timer and watchdog */

static uint64_t now_us(void *unused) {
    (void)unused;
    return board_now_us();
}

static void wait_until_us(void *unused, uint64_t moment_us) {
    (void)unused;
    board_wait_until_us(moment_us);
}

static void feed(void *unused) {
    (void)unused;
    board_feed(WATCHDOG_MS);
}

/* Once the train stands in a life that has no driver yet, he makes it ready. */
static uint32_t take_inputs(void *unused, etcs_unit *unit) {
    static int is_ready;
    const int64_t movement = moved(); /* (first, since the speed goes with it) */
    uint32_t status = etcs_unit_odometer(unit, movement, world->speed_m_per_h);
    (void)unused;
    if (status == ETCS_UNIT_OK) {
        status = etcs_unit_clock(unit, executive.cycles * CYCLE_MS);
    }
    if ((status == ETCS_UNIT_OK) && (is_ready == 0) && (world->speed_m_per_h == 0u)) {
        status = make_ready(unit);
        is_ready = 1;
    }
    return status;
}

static void obey(void *unused, const etcs_unit_output *command) {
    (void)unused;
    if ((command->event > 0u) && (command->brake != world->brake)) {
        say_number(executive.cycles * CYCLE_MS, " ms: brake ");
        say(etcs_brake_name(command->brake));
        say(", limit ");
        say_number(command->limit_m_per_h, " m/h, speed ");
        say_number(world->speed_m_per_h, " m/h\n");
    }
    world->brake = command->brake;
    /* (the event before the outputs of a life's first cycle is its power-up, which comes after all that was obeyed) */
    if ((executive.cycles == 1u) && (world->lives > 1u) && ((command->event - executive.released) <= world->newest)) {
        say("an event whose output was obeyed is lost\n");
    }
    world->newest = (command->event > world->newest) ? command->event : world->newest;
}

/* ---- a life */

/* Every byte that is written may be the one at which power is lost. (A linear congruential generator by Knuth.) */
static void choose_loss(void) {
    world->random = (world->random * UINT64_C(6364136223846793005)) + UINT64_C(1442695040888963407);
    world->bytes_left = 1u + ((world->random >> 20) % (UINT64_C(1) * LIFE_CYCLES * CYCLE_BYTES));
}

static uint32_t live(void) {
    const etcs_equipment equipment = {NULL, NULL, SECTORS, CYCLE_MS * 1000u, LATE_MS * 1000u, stack_guard, (size_t)(stack_end - stack_guard), read_sector, carry_out,
                                      now_us, wait_until_us, take_inputs, obey, feed};
    uint32_t fault = etcs_memory_use(memory, sizeof memory);
    world->bytes_left = UINT64_MAX;
    if (fault == ETCS_UNIT_OK) {
        fault = make_journal();
    }
    world->lives++;
    choose_loss();
    if (fault == ETCS_UNIT_OK) {
        fault = etcs_executive_begin(&executive, &equipment, ETCS_COLD_UNKNOWN);
    }
    while ((fault == ETCS_UNIT_OK) && (world->cycles < CYCLES)) {
        fault = etcs_executive_cycle(&executive);
        world->cycles++;
        world->longest_us = (executive.longest_us > world->longest_us) ? executive.longest_us : world->longest_us;
    }
    return fault;
}

int main(void) {
    etcs_memory_info info = {0, 0, 0, 0, 0};
    board_paint();
    board_watch(WATCHDOG_MS);
    const uint32_t fault = live();
    (void)etcs_memory_state(&info);
    say((fault == ETCS_UNIT_OK) ? "no fault: " : "emergency brake: ");
    say((fault == ETCS_UNIT_OK) ? "" : etcs_executive_fault_name(fault));
    say((fault == ETCS_UNIT_OK) ? "" : ", ");
    say_number(world->cycles, " cycles in ");
    say_number(world->lives, " lives, the longest took ");
    say_number(world->longest_us, " us\nmemory: ");
    say_number(info.most_used, " of ");
    say_number(info.size, " bytes; stack: ");
    say_number(board_stack(), " bytes\n");
    return 0;
}
