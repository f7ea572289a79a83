/* An executive whose unit has a buffer of its own, as the cap on what the track may announce
 * (docs/explain/integration.md, "The cap").
 *
 *     capped PACKETS RESTRICTIONS GRADIENTS SPEEDS    gives it ETCS_MEMORY_BYTES of these, and reads from standard
 * input: an input (inputs.h), `cycle`, which hands in the inputs before it, and `again`, which ends and begins
 *
 * Prints of each cycle and each begin: the fault, the brake that is obeyed, whether the watchdog was fed, the bytes of
 * the buffer that are in use, the most that were, how many requests were refused, the newest event, and a digest of the
 * medium. */
#include "etcs_executive.h"
#include "etcs_memory.h"
#include "inputs.h"
#include "medium.h"

enum { SLOTS = 64, MOST_LINES = 64 };

static medium on;
static etcs_executive executive;
static char lines[MOST_LINES][1024];
static uint32_t count, at;
static uint64_t now;
static unsigned brake, is_fed;

static int read_sector(void *of, uint64_t sector, uint8_t *bytes) {
    memcpy(bytes, sector_of((medium *)of, sector), ETCS_UNIT_SECTOR);
    return 1;
}

static int does_request(void *of, const etcs_unit_request_info *request, const uint8_t *bytes) {
    do_on((medium *)of, request, bytes);
    return 1;
}

static uint64_t now_us(void *of) {
    (void)of;
    return now;
}

static void wait_until_us(void *of, uint64_t moment_us) {
    (void)of;
    now = moment_us;
}

static uint32_t take_inputs(void *of, etcs_unit *unit) {
    (void)of;
    for (; at < count; at++) {
        const uint32_t status = take(unit, lines[at]);
        if (status != ETCS_UNIT_OK)
            return status;
    }
    return ETCS_UNIT_OK;
}

static void obey(void *of, const etcs_unit_output *command) {
    (void)of;
    brake = command->brake;
}

static void feed(void *of) {
    (void)of;
    is_fed = 1;
}

static void print(const char *what, uint32_t fault) {
    etcs_memory_info memory;
    uint64_t of_medium = DIGEST;
    digest(&of_medium, on.bytes, on.len);
    if (etcs_memory_state(&memory) != ETCS_UNIT_OK)
        exit(2);
    printf("%s %s %s %u %llu %llu %llu %llu %llx\n", what, etcs_executive_fault_name(fault), etcs_brake_name(brake),
           is_fed, (unsigned long long)memory.used, (unsigned long long)memory.most_used,
           (unsigned long long)memory.refused, (unsigned long long)executive.command.event,
           (unsigned long long)of_medium);
    is_fed = count = at = 0;
}

int main(int words_count, char **words) {
    static etcs_equipment equipment;
    uint64_t given[4];
    if (words_count != 5)
        return 2;
    for (int i = 0; i < 4; i++)
        given[i] = strtoull(words[1 + i], NULL, 10);
    const uint64_t size = ETCS_MEMORY_BYTES(given[0], given[1], given[2], given[3]);
    uint8_t *const buffer = (uint8_t *)malloc(size);
    on = formatted(SLOTS);
    equipment.medium = &on;
    equipment.sectors = 1 + 6 * SLOTS;
    equipment.cycle_us = 100000;
    equipment.late_us = 50000;
    equipment.read_sector = read_sector;
    equipment.carry_out = does_request;
    equipment.now_us = now_us;
    equipment.wait_until_us = wait_until_us;
    equipment.take_inputs = take_inputs;
    equipment.obey = obey;
    equipment.feed = feed;
    if (buffer == NULL || etcs_memory_use(buffer, size) != ETCS_UNIT_OK)
        return 2;
    print("begin", etcs_executive_begin(&executive, &equipment, ETCS_COLD_UNKNOWN));
    while (count < MOST_LINES && fgets(lines[count], sizeof lines[count], stdin)) {
        if (strcmp(lines[count], "cycle\n") == 0) {
            const uint32_t fault = etcs_executive_cycle(&executive);
            print("cycle", fault);
        } else if (strcmp(lines[count], "again\n") == 0) {
            etcs_executive_end(&executive);
            print("begin", etcs_executive_begin(&executive, &equipment, ETCS_COLD_UNKNOWN));
        } else {
            count++;
        }
    }
    etcs_executive_end(&executive);
    print("end", ETCS_UNIT_OK);
    free(on.bytes);
    free(buffer);
    return 0;
}
