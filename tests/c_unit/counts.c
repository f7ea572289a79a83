/* Runs scenarios by the calls of c/include/etcs_unit.h, and marks for callgrind where each counted line ends ("scenario N").
 *
 *     counts    reads scenarios from standard input, an input a line (inputs.h), or one of
 *
 *     scenario SLOTS    begin one, on an empty journal of SLOTS slots
 *     cold VALUE        power up with this cold-movement value (enum etcs_cold), after an open unit was closed
 *     flush             prepare, carry out and release; it comes of itself before a ninth pending input
 *     count             count the next line, and print the mode after it
 *
 * It ends with status 1 where a line isn't accepted.
 *
 * The linker hands the library's requests for memory to the functions below (--wrap=malloc,--wrap=realloc,--wrap=free): a piece that
 * grows is always moved, and what is given back isn't handed out again. So a count doesn't depend on earlier requests. */
#include <valgrind/callgrind.h>

#include "inputs.h"
#include "medium.h"

enum { MOST_SLOTS = 1024 };

static union piece {
    size_t size;
    long double aligned;
} arena[(64 << 20) / sizeof(union piece)];
static size_t used;

void *__wrap_malloc(size_t size);
void *__wrap_realloc(void *memory, size_t size);
void __wrap_free(void *memory);

void *__wrap_malloc(size_t size) {
    union piece *const piece = arena + used;
    const size_t count = 1 + (size + sizeof *piece - 1) / sizeof *piece;
    if (count > sizeof arena / sizeof *arena - used)
        return NULL;
    used += count;
    piece->size = size;
    return piece + 1;
}

void *__wrap_realloc(void *memory, size_t size) {
    void *const moved = __wrap_malloc(size);
    if (moved && memory) {
        const size_t before = ((union piece *)memory - 1)->size;
        memcpy(moved, memory, before < size ? before : size);
    }
    return moved;
}

void __wrap_free(void *memory) {
    (void)memory;
}

static etcs_unit unit;
static uint8_t sectors[(1 + 6 * MOST_SLOTS) * ETCS_UNIT_SECTOR];
static medium disk = {sectors, 0};
static unsigned pending;
static uint32_t mode;

/* Carries out and releases a power-up or a preparation that answered so. */
static uint32_t released(uint32_t status) {
    etcs_unit_output outputs[ETCS_UNIT_OUTPUTS];
    uint32_t count = 0;
    if (status == ETCS_UNIT_OK)
        status = carry_out(&disk, &unit);
    if (status == ETCS_UNIT_OK)
        status = etcs_unit_release(&unit, outputs, ETCS_UNIT_OUTPUTS, &count);
    if (count > 0)
        mode = outputs[count - 1].mode;
    pending = 0;
    return status;
}

static void end_life(void) {
    if (unit.is_open)
        released(etcs_unit_prepare(&unit));
    etcs_unit_close(&unit);
}

static void begin(uint32_t slots) {
    etcs_unit_request_info request;
    uint8_t bytes[ETCS_UNIT_SECTOR];
    end_life();
    used = 0;
    mode = ETCS_STAND_BY;
    disk.len = (1 + 6 * (size_t)slots) * ETCS_UNIT_SECTOR;
    memset(sectors, 0, disk.len);
    for (uint32_t i = 0; etcs_unit_format_request(slots, i, &request, bytes, sizeof bytes) == ETCS_UNIT_OK; i++)
        do_on(&disk, &request, bytes);
}

static uint32_t run(const char *line) {
    uint32_t cold;
    if (sscanf(line, "cold %" SCNu32, &cold) == 1)
        return released(etcs_unit_open(&unit, disk.bytes, disk.len, cold));
    if (strcmp(line, "flush\n") == 0)
        return released(etcs_unit_prepare(&unit));
    pending++;
    return take(&unit, line);
}

int main(void) {
    char line[1024], label[32];
    unsigned scenario = 0;
    int counts = 0;
    while (fgets(line, sizeof line, stdin)) {
        uint32_t slots;
        if (sscanf(line, "scenario %" SCNu32, &slots) == 1 && slots <= MOST_SLOTS) {
            begin(slots);
            scenario++;
        } else if (strcmp(line, "count\n") == 0) {
            counts = 1;
        } else {
            if (strncmp(line, "cold", 4) == 0)
                end_life();
            else if (pending == ETCS_UNIT_OUTPUTS && strcmp(line, "flush\n") != 0)
                released(etcs_unit_prepare(&unit));
            CALLGRIND_ZERO_STATS;
            if (run(line) != ETCS_UNIT_OK) {
                fprintf(stderr, "scenario %u: not accepted: %s", scenario, line);
                return 1;
            }
            if (counts) {
                snprintf(label, sizeof label, "scenario %u", scenario);
                CALLGRIND_DUMP_STATS_AT(label);
                if (pending > 0)
                    released(etcs_unit_prepare(&unit));
                printf("%u\n", mode);
                counts = 0;
            }
        }
    }
    return 0;
}
