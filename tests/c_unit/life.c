/* Runs one life on an image, and prints what `etcs run` prints of it: a line for each output that is released.
 *
 *     life slow|fast IMAGE COLD [CUT]    reads inputs from standard input, one a line; a slow medium takes one before each request of a list;
 *                                        with CUT the medium fails after so many requests; with -1 - CUT it stops while it opens, after
 *                                        so many sectors
 *     life format IMAGE SLOTS
 *
 * The inputs are those of inputs.h; a line may also be `flush`. */
#include "etcs_file.h"
#include "inputs.h"

#include <inttypes.h>
#include <stdio.h>
#include <stdlib.h>
#include <string.h>

enum { DONE = 0, REFUSED = 1, DEVICE = 3, WRONG_WORDS = 2 };

/* How many requests may still be carried out; below 0 there is no end. */
static long left = -1;

/* Whether the medium is slow; the line that was read, if it wasn't taken yet; and what an input answered within a list. */
static int is_slow, has_line;
static char line[1024];
static uint32_t taken = ETCS_UNIT_OK;

static const char *name_of(uint32_t status) {
    switch (status) {
    case ETCS_UNIT_OPEN_DEVICE_FAULT: return "DeviceFault";
    case ETCS_UNIT_OPEN_NOT_FORMATTED: return "NotFormatted";
    case ETCS_UNIT_OPEN_DAMAGED: return "Damaged";
    case ETCS_UNIT_OPEN_NO_MEMORY: return "NoMemory";
    case ETCS_UNIT_OPEN_WORN_OUT: return "WornOut";
    case ETCS_UNIT_PENDING_FULL: return "PendingFull";
    case ETCS_UNIT_CLOCK_BACK: return "ClockBack";
    case ETCS_UNIT_NO_MEMORY: return "NoMemory";
    case ETCS_UNIT_WORN_OUT: return "WornOut";
    default: return "?";
    }
}

static const char *mode_of(uint8_t mode) {
    static const char *const words[] = {"FS", "OS", "SR", "SH", "UN", "?", "SB", "TR", "PT", "SF"};
    return mode < sizeof words / sizeof words[0] ? words[mode] : "?";
}

static void print(const etcs_unit_output *output) {
    static const char *const brakes[] = {"none", "service", "emergency"};
    const char *level = output->level == ETCS_LEVEL_0 ? "0" : output->level == ETCS_LEVEL_1 ? "1" : output->level == ETCS_LEVEL_INVALID ? "-" : "?";
    printf("event %" PRIu64 " mode %s level %s brake %s limit %" PRIu32 " ind %u\n", output->event, mode_of(output->mode), level,
           output->brake < 3 ? brakes[output->brake] : "?", output->limit_m_per_h, (unsigned)output->indications);
}

static int reads_line(void) {
    if (!has_line)
        has_line = fgets(line, sizeof line, stdin) != NULL;
    return has_line;
}

/* Takes the next line within a list, unless it is a flush, eight are pending, or one wasn't taken. */
static void take_meanwhile(etcs_unit *unit) {
    if (!is_slow || taken != ETCS_UNIT_OK || !reads_line() || strcmp(line, "flush\n") == 0)
        return;
    const uint32_t status = take(unit, line);
    if (status == ETCS_UNIT_PENDING_FULL)
        return;
    has_line = 0;
    taken = status;
}

/* Carries out the requests, up to the cut. */
static uint32_t carry_out(etcs_file *file, etcs_unit *unit) {
    if (left < 0 && !is_slow)
        return etcs_file_carry_out(file, unit);
    etcs_unit_request_info request;
    uint8_t bytes[ETCS_UNIT_REQUEST_BYTES];
    uint32_t status;
    while ((status = etcs_unit_request(unit, &request, bytes, sizeof bytes)) == ETCS_UNIT_OK) {
        if (request.kind != ETCS_REQUEST_READ) {
            take_meanwhile(unit);
            if (left == 0)
                return etcs_unit_fail(unit) == ETCS_UNIT_OK ? ETCS_FILE_CANT_WRITE : ETCS_FILE_UNIT;
            left--;
        }
        if (etcs_file_serve_(file, unit, &request, bytes) != ETCS_FILE_OK)
            return ETCS_FILE_UNIT;
    }
    return status == ETCS_UNIT_NO_SUCH_REQUEST ? ETCS_FILE_OK : ETCS_FILE_UNIT;
}

/* Puts what is pending onto the file, and prints what is released. What an input answered meanwhile comes after that. */
static uint32_t flush(etcs_file *file, etcs_unit *unit, int prepares) {
    etcs_unit_output outputs[ETCS_UNIT_OUTPUTS];
    uint32_t count = 0, status;
    if (prepares && etcs_file_prepare(file, unit) != ETCS_FILE_OK)
        return file->status;
    const uint32_t answer = carry_out(file, unit);
    if (answer != ETCS_FILE_OK && answer != ETCS_FILE_CANT_WRITE)
        return ETCS_UNIT_FAILED;
    status = etcs_unit_release(unit, outputs, ETCS_UNIT_OUTPUTS, &count);
    for (uint32_t i = 0; status == ETCS_UNIT_OK && i < count; i++)
        print(&outputs[i]);
    return status == ETCS_UNIT_OK ? taken : status;
}

/* The whole life; a flush comes of itself before a ninth pending event, and at the end. */
static uint32_t live(etcs_file *file, etcs_unit *unit) {
    uint32_t status = flush(file, unit, 0);
    while (status == ETCS_UNIT_OK && reads_line()) {
        has_line = 0;
        if (strcmp(line, "flush\n") == 0) {
            status = flush(file, unit, 1);
            continue;
        }
        status = take(unit, line);
        if (status == ETCS_UNIT_PENDING_FULL) {
            has_line = 1;
            status = flush(file, unit, 1);
        }
    }
    return status == ETCS_UNIT_OK ? flush(file, unit, 1) : status;
}

/* A power-up that is abandoned after so many sectors: the kind of the request that was next. */
static const char *abandoned(etcs_file *file, const char *path, uint32_t cold, long sectors) {
    etcs_unit unit = {0};
    etcs_unit_request_info request;
    uint8_t bytes[ETCS_UNIT_REQUEST_BYTES];
    uint32_t status = ETCS_UNIT_FAILED;
    if (etcs_file_lock_(file, path, 0) == ETCS_FILE_OK && etcs_file_settle_(file) == ETCS_FILE_OK)
        status = etcs_unit_begin(&unit, (uint64_t)lseek(file->descriptor, 0, SEEK_END) / ETCS_UNIT_SECTOR, cold);
    while (status == ETCS_UNIT_OK && sectors-- > 0 && etcs_unit_request(&unit, &request, bytes, sizeof bytes) == ETCS_UNIT_OK
           && request.kind == ETCS_REQUEST_READ)
        status = etcs_file_serve_(file, &unit, &request, bytes) == ETCS_FILE_OK ? (uint32_t)ETCS_UNIT_OK : file->status;
    const char *next = status == ETCS_UNIT_OK && etcs_unit_request(&unit, &request, bytes, sizeof bytes) == ETCS_UNIT_OK
                           ? etcs_request_kind_name((uint32_t)request.kind) : "none";
    (void)etcs_unit_close(&unit);
    return next;
}

int main(int count, char **words) {
    etcs_unit unit = {0};
    etcs_file file = {0};
    if (count == 4 && strcmp(words[1], "format") == 0)
        return etcs_file_wipe(&file, words[2], (uint32_t)strtoul(words[3], NULL, 10)) == ETCS_FILE_OK ? DONE : DEVICE;
    if (count != 4 && count != 5)
        return WRONG_WORDS;
    is_slow = strcmp(words[1], "slow") == 0;
    const uint32_t cold = (uint32_t)strtoul(words[3], NULL, 10);
    left = count == 5 ? strtol(words[4], NULL, 10) : -1;
    if (count == 5 && left < 0) {
        printf("abandoned before a %s\n", abandoned(&file, words[2], cold, -1 - left));
        return REFUSED;
    }
    uint32_t answer = etcs_file_open(&file, words[2], &unit, cold);
    if (answer != ETCS_FILE_OK && answer != ETCS_FILE_UNIT) {
        puts("device");
        return DEVICE;
    }
    const uint32_t status = answer == ETCS_FILE_OK ? live(&file, &unit) : file.status;
    if (status != ETCS_UNIT_OK)
        printf("stopped %" PRIu32 " %s\n", status, name_of(status));
    etcs_file_close(&file, &unit);
    return status == ETCS_UNIT_OK ? DONE : REFUSED;
}
