/* What a unit over a ring of any size reads of its medium, and takes of memory. The ring lies in a file, of which the program holds one sector at a
 * time.
 *
 *     sized fill FILE SLOTS    formats, and lives a life until each slot has held a block, and two a second one
 *     sized open FILE          opens, and flushes a moment of the clock
 *
 * `open` prints how many sectors were read until the unit was open, and by the flush; the bytes of the process that were resident then, and at most, in
 * kB; and with OWN_MEMORY, over the library without malloc, the most bytes of its buffer that were used. */
#define _POSIX_C_SOURCE 200809L
#include <fcntl.h>
#include <unistd.h>

#include "etcs_memory.h"
#include "medium.h"

static int file;
static unsigned long sectors_read;

static int reads(uint64_t sector, uint8_t *bytes, size_t size) {
    sectors_read += size / ETCS_UNIT_SECTOR;
    return pread(file, bytes, size, (off_t)(sector * ETCS_UNIT_SECTOR)) == (ssize_t)size;
}

static int carries_out(const etcs_unit_request_info *request, const uint8_t *bytes) {
    const size_t size = (size_t)request->sectors * ETCS_UNIT_SECTOR;
    return request->kind == ETCS_REQUEST_SYNC || pwrite(file, bytes, size, (off_t)(request->sector * ETCS_UNIT_SECTOR)) == (ssize_t)size;
}

/* ---- a unit over the file */

/* Carries out what is to be done: only the reads at first, or all of it. */
static void does_requests(etcs_unit *unit, int all) {
    static uint8_t bytes[ETCS_UNIT_REQUEST_BYTES];
    etcs_unit_request_info request;
    while (etcs_unit_request(unit, &request, bytes, sizeof bytes) == ETCS_UNIT_OK && (all || request.kind == ETCS_REQUEST_READ)) {
        const int is_read = request.kind == ETCS_REQUEST_READ;
        is("a request", (uint64_t)(is_read ? reads(request.sector, bytes, ETCS_UNIT_SECTOR) : carries_out(&request, bytes)), 1);
        is("it is done", is_read ? etcs_unit_provide(unit, request.sector, bytes, ETCS_UNIT_SECTOR) : etcs_unit_done(unit), ETCS_UNIT_OK);
    }
}

static uint32_t opened(etcs_unit *unit, size_t size) {
    const uint32_t status = etcs_unit_begin(unit, size / ETCS_UNIT_SECTOR, ETCS_COLD_UNKNOWN);
    does_requests(unit, 0);
    return status;
}

static void released(etcs_unit *unit) {
    etcs_unit_output outputs[ETCS_UNIT_OUTPUTS];
    uint32_t count;
    does_requests(unit, 1);
    is("release", etcs_unit_release(unit, outputs, ETCS_UNIT_OUTPUTS, &count), ETCS_UNIT_OK);
}

static void flush_a_moment(etcs_unit *unit, uint64_t moment) {
    is("clock", etcs_unit_clock(unit, moment), ETCS_UNIT_OK);
    is("prepare", etcs_unit_prepare(unit), ETCS_UNIT_OK);
    released(unit);
}

/* ---- output */

/* A figure of /proc/self/status, in kB. */
static unsigned long process_figure(const char *name) {
    char line[256];
    unsigned long found = 0;
    FILE *const status = fopen("/proc/self/status", "r");
    while (status != NULL && found == 0 && fgets(line, sizeof line, status) != NULL)
        if (strncmp(line, name, strlen(name)) == 0)
            found = strtoul(line + strlen(name), NULL, 10);
    if (status != NULL)
        fclose(status);
    return found;
}

static unsigned long most_used(void) {
#ifdef OWN_MEMORY
    etcs_memory_info memory;
    is("state of the memory", etcs_memory_state(&memory), ETCS_UNIT_OK);
    return (unsigned long)memory.most_used;
#else
    return 0;
#endif
}

/* ---- the two words */

static void fill(uint32_t slots, size_t size) {
    uint8_t bytes[ETCS_UNIT_SECTOR];
    etcs_unit_request_info request;
    etcs_unit unit = {0};
    for (uint32_t i = 0; etcs_unit_format_request(slots, i, &request, bytes, sizeof bytes) == ETCS_UNIT_OK; i++)
        is("format", (uint64_t)carries_out(&request, bytes), 1);
    is("open", opened(&unit, size), ETCS_UNIT_OK);
    released(&unit);
    for (uint32_t moment = 0; moment <= slots; moment++)
        flush_a_moment(&unit, moment);
    is("close", etcs_unit_close(&unit), ETCS_UNIT_OK);
}

static void open_and_flush(size_t size) {
    etcs_unit unit = {0};
    is("open", opened(&unit, size), ETCS_UNIT_OK);
    const unsigned long by_opening = sectors_read;
    released(&unit);
    flush_a_moment(&unit, 1);
    printf("opening %lu flush %lu resident %lu peak %lu used %lu\n", by_opening, sectors_read - by_opening, process_figure("VmRSS:"),
           process_figure("VmHWM:"), most_used());
    is("close", etcs_unit_close(&unit), ETCS_UNIT_OK);
}

int main(int count, char **words) {
#ifdef OWN_MEMORY
    static uint8_t buffer[ETCS_MEMORY_BYTES(16, 32, 100, 100)];
    is("use", etcs_memory_use(buffer, sizeof buffer), ETCS_UNIT_OK);
#endif
    const int fills = count > 1 && strcmp(words[1], "fill") == 0;
    if (count != 3 + fills)
        return 2;
    const uint32_t slots = fills ? (uint32_t)strtoul(words[3], NULL, 10) : 0;
    file = open(words[2], fills ? O_RDWR | O_CREAT | O_TRUNC : O_RDWR, 0666);
    if (file < 0 || (fills && ftruncate(file, (1 + 6 * (off_t)slots) * ETCS_UNIT_SECTOR) != 0))
        return 2;
    const size_t size = (size_t)lseek(file, 0, SEEK_END);
    if (fills)
        fill(slots, size);
    else
        open_and_flush(size);
    close(file);
    return wrong > 0;
}
