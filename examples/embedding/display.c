/* Prints after each flush why the newest output is what it is, and what a display shows of it (etcs_unit_why). */
#include "etcs_file.h"

#include <stdio.h>

static void show(const etcs_unit_why_info *why) {
    printf("event %u: %u m/h, permitted %u, brakes above %u and %u", (unsigned)why->output.event, (unsigned)why->speed_m_per_h,
           (unsigned)why->output.limit_m_per_h, (unsigned)why->service_brake_m_per_h, (unsigned)why->emergency_brake_m_per_h);
    if (why->has_target)
        printf("; %u m/h in %llu cm", (unsigned)why->target_m_per_h, (unsigned long long)why->target_distance_cm);
    printf("\n");
    if (why->holds[ETCS_CAUSE_TOO_FAST])
        printf("  too fast: service brake until the speed is within the limit\n");
}

/* Writes what is pending to the file, and shows the newest output. */
static uint32_t cycle(etcs_file *file, etcs_unit *unit) {
    etcs_unit_output outputs[ETCS_UNIT_OUTPUTS];
    etcs_unit_why_info why;
    uint32_t count;
    if (etcs_file_flush(file, unit, outputs, &count) != ETCS_FILE_OK)
        return ETCS_UNIT_FAILED;
    const uint32_t status = etcs_unit_why(unit, &why);
    if (status == ETCS_UNIT_OK)
        show(&why);
    return status;
}

int main(int count, char **words) {
    /* 1,000 m of level track; and a train of 200 m that brakes with 0.7 m/s^2, at once (no real one does), of no category */
    static const uint8_t authority[] = {0x90, 0x00, 0x7F, 0x80, 0x20, 0x01, 0x43, 0x20, 0x24, 0xA8, 0x00, 0x7F, 0xE0, 0x07, 0xD0, 0x02,
                                        0xB0, 0x0D, 0x90, 0x00, 0x10, 0x00, 0x0D, 0xC0, 0x3A, 0x40, 0x00, 0x20, 0x80, 0x1F, 0xE0};
    static const etcs_train_data data = {20000, 160000, 70, 0, ETCS_CATEGORY_NONE};
    static const uint32_t speeds[] = {100000, 100000, 100000, 100000, 100000, 80000};
    etcs_unit unit = {0};
    etcs_file file = {0};
    if (count != 2)
        return 2;
    uint32_t answer = etcs_file_format(&file, words[1], 16); /* where there is no journal yet */
    if (answer == ETCS_FILE_OK || answer == ETCS_FILE_NOT_EMPTY)
        answer = etcs_file_open(&file, words[1], &unit, ETCS_COLD_UNKNOWN);
    if (answer != ETCS_FILE_OK)
        return 2;
    uint32_t status = cycle(&file, &unit); /* of the power-up */
    if (etcs_unit_telegram(&unit, authority, sizeof authority) != ETCS_UNIT_OK || etcs_unit_identity(&unit, (const uint8_t *)"IC 704", 6) != ETCS_UNIT_OK
        || etcs_unit_action(&unit, ETCS_CHOOSE_LEVEL_1) != ETCS_UNIT_OK || etcs_unit_train_data(&unit, &data) != ETCS_UNIT_OK
        || etcs_unit_action(&unit, ETCS_START) != ETCS_UNIT_OK || cycle(&file, &unit) != ETCS_UNIT_OK)
        return 1;
    for (size_t i = 0; status == ETCS_UNIT_OK && i < sizeof speeds / sizeof speeds[0]; i++) {
        status = etcs_unit_odometer(&unit, 10000, speeds[i]); /* 100 m farther */
        if (status == ETCS_UNIT_OK)
            status = cycle(&file, &unit);
    }
    etcs_file_close(&file, &unit);
    return status != ETCS_UNIT_OK;
}
