/* The unit over a file in a cyclic executive, and a train that runs towards the end of its movement authority until it is braked.
 *
 *     brake IMAGE    a journal, which is made where there is none
 *
 * It prints each command that differs from the one before. */
#include "etcs_file.h"
#include "etcs_executive.h"

#include <inttypes.h>
#include <stdio.h>

enum { CYCLE_MS = 500, MOST_CYCLES = 1000, SLOTS = 64 };

/* The equipment around the unit. Here it is a train that is simulated, with its time: it pulls up to 100 km/h, and slows where
 * a brake is commanded. A reading reports whole centimetres: what is left of a movement is carried over to the next one, since
 * cut off it would be lost, at 5 km/h and ten readings a second 64 m of 1,000. */
typedef struct {
    uint64_t moment_ms;
    int64_t movement_cm;
    int64_t rest; /* in 1/36,000 cm, as a way is m/h * ms */
    uint32_t speed_m_per_h;
    etcs_unit_output command;
} train;

static void go_on(train *our) {
    /* m/h in half a second: 0.5 m/s^2 forward, 0.7 and 1 m/s^2 against it */
    static const int64_t gained[] = {900, -1260, -1800};
    const int64_t speed = (int64_t)our->speed_m_per_h + gained[our->command.brake];
    our->speed_m_per_h = speed < 0 ? 0 : speed > 100000 ? 100000 : (uint32_t)speed;
    const int64_t way = (int64_t)our->speed_m_per_h * CYCLE_MS + our->rest;
    our->movement_cm = way / 36000;
    our->rest = way % 36000;
    our->moment_ms += CYCLE_MS;
}

/* ---- what the executive calls */

static uint64_t now_us(void *of) {
    return ((train *)of)->moment_ms * 1000u;
}

/* (here time passes in go_on; examples/cortex_a waits by the system's clock) */
static void wait_until_us(void *of, uint64_t moment_us) {
    (void)of;
    (void)moment_us;
}

/* (a file has no watchdog) */
static void feed(void *of) {
    (void)of;
}

static void obey(void *of, const etcs_unit_output *command) {
    train *const our = (train *)of;
    if (command->event > our->command.event && (command->brake != our->command.brake || command->mode != our->command.mode))
        printf("event %" PRIu64 ": mode %s, brake %s, limit %" PRIu32 " m/h, speed %" PRIu32 " m/h\n", command->event,
               etcs_mode_name(command->mode), etcs_brake_name(command->brake), command->limit_m_per_h, our->speed_m_per_h);
    our->command = *command;
}

/* The driver makes the train ready, and a group gives an authority of 1,000 m. */
static uint32_t make_ready(etcs_unit *unit) {
    static const uint8_t identity[] = "IC 704";
    static const uint8_t authority[] = {0x90, 0x00, 0x7F, 0x80, 0x20, 0x01, 0x43, 0x20, 0x24, 0xA8, 0x00, 0x7F, 0xE0, 0x07, 0xD0, 0x02,
                                        0xB0, 0x0D, 0x90, 0x00, 0x10, 0x00, 0x0D, 0xC0, 0x3A, 0x40, 0x00, 0x20, 0x80, 0x1F, 0xE0};
    /* 200 m, 160 km/h, 0.7 m/s^2, brakes that act at once (no real ones do: docs/explain/integration.md, 7), and no category */
    static const etcs_train_data data = {20000, 160000, 70, 0, ETCS_CATEGORY_NONE};
    uint32_t status = etcs_unit_telegram(unit, authority, sizeof authority);
    if (status == ETCS_UNIT_OK)
        status = etcs_unit_identity(unit, identity, sizeof identity - 1);
    if (status == ETCS_UNIT_OK)
        status = etcs_unit_action(unit, ETCS_CHOOSE_LEVEL_1);
    if (status == ETCS_UNIT_OK)
        status = etcs_unit_train_data(unit, &data);
    if (status == ETCS_UNIT_OK)
        status = etcs_unit_action(unit, ETCS_START);
    return status;
}

/* What the driver does in the first cycle, and what the sensors report in each later one. */
static uint32_t take_inputs(void *of, etcs_unit *unit) {
    const train *const our = (train *)of;
    if (our->moment_ms == 0)
        return make_ready(unit);
    const uint32_t status = etcs_unit_odometer(unit, our->movement_cm, our->speed_m_per_h);
    return status == ETCS_UNIT_OK ? etcs_unit_clock(unit, our->moment_ms) : status;
}

int main(int count, char **words) {
    static etcs_executive executive;
    train our = {0, 0, 0, 0, {0, 0, ETCS_STAND_BY, ETCS_LEVEL_INVALID, ETCS_BRAKE_EMERGENCY, ETCS_SHOWS_NOT_REVALIDATED}};
    etcs_file file = {0};
    etcs_equipment equipment = {&our, &file, 0, CYCLE_MS * 1000u, CYCLE_MS * 1000u, NULL, 0, etcs_file_read_sector,
                                etcs_file_carry_out_request, now_us, wait_until_us, take_inputs, obey, feed};
    if (count != 2)
        return 2;
    uint32_t answer = etcs_file_format(&file, words[1], SLOTS); /* where there is no journal yet */
    if (answer == ETCS_FILE_OK || answer == ETCS_FILE_NOT_EMPTY)
        answer = etcs_file_open_medium(&file, words[1], &equipment.sectors);
    if (answer != ETCS_FILE_OK) {
        printf("emergency brake: opening answered %s, system %d\n", etcs_file_answer_name(answer), file.error);
        return 1;
    }
    uint32_t fault = etcs_executive_begin(&executive, &equipment, ETCS_COLD_UNKNOWN);
    do {
        fault = fault == ETCS_UNIT_OK ? etcs_executive_cycle(&executive) : fault;
        go_on(&our);
    } while (fault == ETCS_UNIT_OK && (our.speed_m_per_h > 0 || executive.cycles < 2) && executive.cycles < MOST_CYCLES);
    if (fault == ETCS_UNIT_OK)
        printf("the train stands after %" PRIu64 " ms\n", our.moment_ms);
    else
        printf("emergency brake: %s, system %d\n", etcs_executive_fault_name(fault), file.error);
    etcs_executive_end(&executive);
    etcs_file_close(&file, &executive.unit);
    return fault == ETCS_UNIT_OK ? 0 : 1;
}
