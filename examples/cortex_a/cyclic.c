/* The executive in a cyclic task on Linux: on a Cortex-A, or any other machine with POSIX threads.
 *
 *     cyclic IMAGE [CYCLES [MILLISECONDS [LATE]]]    a journal, which is made where there is none
 *
 * One task begins, and hands the executive to the cyclic one by starting it. That one runs every 100 ms by the system's clock.
 * Memory is a buffer of the program's own and is locked, so no cycle waits for a page. A cycle that ends LATE milliseconds after
 * it was due, or later, means the emergency brake and the end of the task, and so does any other fault. A wrong entry is shown
 * to the driver, who enters it again. Separate hardware has to brake where this program stops: here `fed` counts how often the
 * executive would feed it. */
#include "etcs_file.h"
#include "etcs_executive.h"
#include "etcs_memory.h"

#include <inttypes.h>
#include <pthread.h>
#include <stdio.h>
#include <stdlib.h>
#include <sys/mman.h>
#include <time.h>

enum { SLOTS = 64, CYCLE_MS = 100, LATE_MS = 50 };

static uint8_t memory[ETCS_MEMORY_BYTES(16, 32, 100, 100)];
static etcs_executive executive;
static uint64_t most_cycles = 20, cycle_ms = CYCLE_MS;

/* What other tasks may read, under its lock. */
static struct {
    pthread_mutex_t lock;
    etcs_unit_output command; /* what the train is commanded now */
    uint64_t fed;
} our = {.lock = PTHREAD_MUTEX_INITIALIZER};

/* ---- what the executive calls */

static uint64_t now_us(void *of) {
    struct timespec at;
    (void)of;
    clock_gettime(CLOCK_MONOTONIC, &at);
    return (uint64_t)at.tv_sec * 1000000u + (uint64_t)at.tv_nsec / 1000u;
}

static void wait_until_us(void *of, uint64_t moment_us) {
    const struct timespec at = {(time_t)(moment_us / 1000000u), (long)(moment_us % 1000000u) * 1000};
    (void)of;
    while (clock_nanosleep(CLOCK_MONOTONIC, TIMER_ABSTIME, &at, NULL) == EINTR)
        continue;
}

static void obey(void *of, const etcs_unit_output *command) {
    (void)of;
    pthread_mutex_lock(&our.lock);
    our.command = *command;
    pthread_mutex_unlock(&our.lock);
}

static void feed(void *of) {
    (void)of;
    pthread_mutex_lock(&our.lock);
    our.fed++;
    pthread_mutex_unlock(&our.lock);
}

/* The driver enters his identity: where it is none, he is asked again, and nothing has changed. */
static uint32_t enter(etcs_unit *unit, const char *identity) {
    const uint32_t status = etcs_unit_identity(unit, (const uint8_t *)identity, strlen(identity));
    if (etcs_status_classify(status, ETCS_OF_DRIVER) != ETCS_KIND_MISTAKE)
        return status;
    printf("the driver enters \"%s\": %s, once more\n", identity, etcs_status_name(status));
    return ETCS_UNIT_OK;
}

/* The train stands, and the driver enters his identity in the third cycle. (A reading of a sensor reports whole centimetres;
 * what is left goes into the next one.) */
static uint32_t take_inputs(void *of, etcs_unit *unit) {
    uint32_t status = etcs_unit_odometer(unit, 0, 0);
    (void)of;
    if (status == ETCS_UNIT_OK)
        status = etcs_unit_clock(unit, executive.cycles * cycle_ms);
    if (status == ETCS_UNIT_OK && executive.cycles == 3)
        status = enter(unit, "an identity that is far too long");
    if (status == ETCS_UNIT_OK && executive.cycles == 3)
        status = enter(unit, "IC 704");
    return status;
}

/* ---- the tasks */

static void *cyclic(void *unused) {
    (void)unused;
    while (etcs_executive_cycle(&executive) == ETCS_UNIT_OK && executive.cycles < most_cycles)
        continue;
    return NULL;
}

/* Makes the journal where there is none, and opens it. */
static uint32_t open_file(etcs_file *file, const char *path, uint64_t *sectors) {
    const uint32_t answer = etcs_file_format(file, path, SLOTS);
    return answer == ETCS_FILE_OK || answer == ETCS_FILE_NOT_EMPTY ? etcs_file_open_medium(file, path, sectors) : answer;
}

static void print_build(void) {
    uint8_t text[ETCS_BUILD_INFO_BYTES];
    uint32_t len = 0;
    if (etcs_build_info(text, sizeof text, &len) == ETCS_UNIT_OK)
        fprintf(stderr, "%.*s\n", (int)len, (const char *)text);
    if (etcs_build_proof() != ETCS_PROOF_PROVED)
        fputs("this library is for no train\n", stderr);
}

int main(int count, char **words) {
    pthread_t task;
    etcs_memory_info info = {0, 0, 0, 0, 0};
    etcs_file file = {0};
    if (count < 2 || etcs_memory_use(memory, sizeof memory) != ETCS_UNIT_OK)
        return 2;
    print_build();
    most_cycles = count > 2 ? strtoull(words[2], NULL, 10) : most_cycles;
    cycle_ms = count > 3 ? strtoull(words[3], NULL, 10) : cycle_ms;
    const uint64_t late_ms = count > 4 ? strtoull(words[4], NULL, 10) : LATE_MS;
    etcs_equipment equipment = {NULL, &file, 0, cycle_ms * 1000u, late_ms * 1000u, NULL, 0, etcs_file_read_sector,
                                etcs_file_carry_out_request, now_us, wait_until_us, take_inputs, obey, feed};
    if (mlockall(MCL_CURRENT | MCL_FUTURE) != 0)
        puts("the memory can't be locked here: a cycle may wait for a page");
    const uint32_t answer = open_file(&file, words[1], &equipment.sectors);
    if (answer != ETCS_FILE_OK || etcs_executive_begin(&executive, &equipment, ETCS_COLD_UNKNOWN) != ETCS_UNIT_OK
        || pthread_create(&task, NULL, cyclic, NULL) != 0) {
        printf("emergency brake: the file %s, the executive %s, system %d\n", etcs_file_answer_name(answer), etcs_executive_fault_name(executive.fault), file.error);
        return 1;
    }
    pthread_join(task, NULL);
    (void)etcs_memory_state(&info);
    printf("%" PRIu64 " cycles, event %" PRIu64 ": brake %u; %s; fed %" PRIu64 " times\n", executive.cycles, our.command.event, (unsigned)our.command.brake,
           etcs_executive_fault_name(executive.fault), our.fed);
    printf("memory: %" PRIu64 " of %" PRIu64 " bytes\n", info.most_used, info.size);
    fprintf(stderr, "the longest cycle took %" PRIu64 " us\n", executive.longest_us);
    etcs_executive_end(&executive);
    etcs_file_close(&file, &executive.unit);
    return executive.fault == ETCS_UNIT_OK ? 0 : 1;
}
