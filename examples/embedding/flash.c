/* The journal on a flash, by a driver of the maker's own, without a file. The unit holds no copy of it: the driver reads the
 * sectors that it asks for. Memory is that of malloc (libetcs_unit.a); examples/bare_metal has a static buffer.
 * Power is lost after each number of requests of a flush, and the next power-up goes on from what is on the flash: either
 * all of the batch is there, or nothing of it, and none of its outputs reached the train before all of it was. Then a read
 * fails, in a flush and in a power-up.
 *
 *     flash */
#include <inttypes.h>
#include <stdio.h>
#include <string.h>

#include "etcs_image.h"

enum { SLOTS = 32, SECTORS = 1 + 6 * SLOTS, BATCH = 3, MOST_REQUESTS = 32 };

/* ---- the driver */

static uint8_t cells[SECTORS * ETCS_UNIT_SECTOR];

/* How many calls the flash still carries out before power is lost; below 0 there is no end. */
static int calls_left = -1;

/* Whether each read fails. */
static int reads_fail;

/* Whether there was power for a call. */
static int has_power(void) {
    if (calls_left == 0)
        return 0;
    if (calls_left > 0)
        calls_left--;
    return 1;
}

static int flash_read(uint64_t sector, uint8_t *bytes) {
    if (!has_power() || reads_fail || sector >= SECTORS)
        return 0;
    memcpy(bytes, cells + sector * ETCS_UNIT_SECTOR, ETCS_UNIT_SECTOR);
    return 1;
}

static int flash_write(uint64_t sector, const uint8_t *bytes, uint64_t sectors) {
    if (!has_power() || sector + sectors > SECTORS)
        return 0;
    memcpy(cells + sector * ETCS_UNIT_SECTOR, bytes, sectors * (size_t)ETCS_UNIT_SECTOR);
    return 1;
}

static int flash_sync(void) {
    return has_power();
}

/* ---- the unit's requests, by the driver */

static int flash_does(const etcs_unit_request_info *request, const uint8_t *bytes) {
    return request->kind == ETCS_REQUEST_SYNC ? flash_sync() : flash_write(request->sector, bytes, request->sectors);
}

/* Makes the flash an empty journal where it has none: a format of one would lose its events. 0 where the flash fails. */
static int make_journal(void) {
    etcs_unit_request_info request;
    etcs_image facts;
    uint8_t bytes[ETCS_UNIT_SECTOR];
    uint32_t status, index = 0;
    if (!flash_read(0, bytes))
        return 0;
    if (etcs_image_facts(bytes, sizeof bytes, &facts) == ETCS_UNIT_OK)
        return 1;
    while ((status = etcs_unit_format_request(SLOTS, index, &request, bytes, sizeof bytes)) == ETCS_UNIT_OK && flash_does(&request, bytes))
        index++;
    return status == ETCS_UNIT_NO_SUCH_REQUEST;
}

/* Carries out one request, and hands in what was read, or says that it is done. Where the flash fails it says so to the unit. */
static uint32_t serve(etcs_unit *unit, const etcs_unit_request_info *request, uint8_t *bytes) {
    const int is_read = request->kind == ETCS_REQUEST_READ;
    if (is_read ? flash_read(request->sector, bytes) : flash_does(request, bytes))
        return is_read ? etcs_unit_provide(unit, request->sector, bytes, ETCS_UNIT_SECTOR) : etcs_unit_done(unit);
    etcs_unit_fail(unit);
    return ETCS_UNIT_FAILED;
}

/* Carries out all that is to be done, at power-up and in each flush. */
static uint32_t carry_out(etcs_unit *unit) {
    etcs_unit_request_info request;
    static uint8_t bytes[ETCS_UNIT_REQUEST_BYTES];
    uint32_t status;
    while ((status = etcs_unit_request(unit, &request, bytes, sizeof bytes)) == ETCS_UNIT_OK) {
        status = serve(unit, &request, bytes);
        if (status != ETCS_UNIT_OK)
            return status;
    }
    return status == ETCS_UNIT_NO_SUCH_REQUEST ? (uint32_t)ETCS_UNIT_OK : status;
}

static uint32_t release(etcs_unit *unit, etcs_unit_output *outputs, uint32_t *count) {
    const uint32_t status = carry_out(unit);
    return status == ETCS_UNIT_OK ? etcs_unit_release(unit, outputs, ETCS_UNIT_OUTPUTS, count) : status;
}

static uint32_t power_up(etcs_unit *unit) {
    etcs_unit_output outputs[ETCS_UNIT_OUTPUTS];
    uint32_t count, status = etcs_unit_begin(unit, SECTORS, ETCS_COLD_UNKNOWN);
    return status == ETCS_UNIT_OK ? release(unit, outputs, &count) : status;
}

/* ---- the story */

static uint32_t accept(etcs_unit *unit, uint32_t events) {
    uint32_t status = ETCS_UNIT_OK;
    for (uint32_t event = 1; event <= events && status == ETCS_UNIT_OK; event++)
        status = etcs_unit_clock(unit, 100 * event);
    return status;
}

/* A life of one batch, whose power is lost after so many of its requests; how many outputs were released goes to `count`. */
static uint32_t first_life(int requests, uint32_t *count) {
    etcs_unit unit = {0};
    etcs_unit_output outputs[ETCS_UNIT_OUTPUTS];
    uint32_t status = power_up(&unit);
    *count = 0;
    if (status == ETCS_UNIT_OK)
        status = accept(&unit, BATCH);
    if (status == ETCS_UNIT_OK)
        status = etcs_unit_prepare(&unit);
    calls_left = requests;
    if (status == ETCS_UNIT_OK)
        status = release(&unit, outputs, count);
    calls_left = -1;
    etcs_unit_close(&unit);
    return status;
}

/* The next life: the number of its first event after the power-up says how many events there are before it. */
static uint32_t second_life(uint64_t *event) {
    etcs_unit unit = {0};
    etcs_unit_output outputs[ETCS_UNIT_OUTPUTS];
    uint32_t count = 0, status = power_up(&unit);
    if (status == ETCS_UNIT_OK)
        status = accept(&unit, 1);
    if (status == ETCS_UNIT_OK)
        status = etcs_unit_prepare(&unit);
    if (status == ETCS_UNIT_OK)
        status = release(&unit, outputs, &count);
    if (status == ETCS_UNIT_OK && count == 1)
        *event = outputs[0].event;
    etcs_unit_close(&unit);
    return status == ETCS_UNIT_OK && count != 1 ? (uint32_t)ETCS_UNIT_FAILED : status;
}

/* Loses power after each number of requests of a flush, until none is left; 0 where something else comes than is expected. */
static int loses_power(void) {
    for (int requests = 0; requests <= MOST_REQUESTS; requests++) {
        uint32_t released = 0;
        uint64_t event = 0;
        memset(cells, 0xFF, sizeof cells); /* a new flash */
        if (!make_journal())
            return 0;
        const uint32_t answer = first_life(requests, &released);
        if (answer != ETCS_UNIT_OK && answer != ETCS_UNIT_FAILED)
            return 0;
        if (!make_journal() || second_life(&event) != ETCS_UNIT_OK) /* (which leaves the journal as it is) */
            return 0;
        /* events 0, 1 to BATCH, the second power-up, and then this one; or without the batch */
        const int is_there = event == BATCH + 2;
        if ((!is_there && event != 2) || (answer == ETCS_UNIT_OK && !is_there) || released != (answer == ETCS_UNIT_OK ? BATCH : 0))
            return 0;
        printf("power lost after %d requests: %" PRIu32 " outputs released; then %s of the batch on the flash\n", requests, released,
               is_there ? "all" : "nothing");
        if (answer == ETCS_UNIT_OK)
            return 1;
    }
    return 0;
}

/* Flushes until a sector is read, which fails; then closes the unit, and opens it again. */
static int fails_to_read(void) {
    etcs_unit unit = {0};
    etcs_unit_output outputs[ETCS_UNIT_OUTPUTS];
    uint32_t count, status = power_up(&unit);
    for (uint64_t moment = 100; status == ETCS_UNIT_OK && moment <= 100 * SLOTS; moment += 100) {
        reads_fail = 1;
        status = etcs_unit_clock(&unit, moment);
        if (status == ETCS_UNIT_OK)
            status = etcs_unit_prepare(&unit);
        if (status == ETCS_UNIT_OK)
            status = release(&unit, outputs, &count);
    }
    const uint32_t input = etcs_unit_clock(&unit, 100 * SLOTS + 100);
    printf("a read failed in a flush: %s, the next input %s\n", etcs_status_name(status), etcs_status_name(input));
    etcs_unit_close(&unit);
    const uint32_t closed = power_up(&unit);
    reads_fail = 0;
    const uint32_t opened = power_up(&unit);
    printf("a read failed in a power-up: %s; the next one: %s\n", etcs_status_name(closed), etcs_status_name(opened));
    etcs_unit_close(&unit);
    return status == ETCS_UNIT_FAILED && input == ETCS_UNIT_INPUT_FAILED && closed == ETCS_UNIT_FAILED && opened == ETCS_UNIT_OK;
}

int main(void) {
    if (loses_power() && fails_to_read())
        return 0;
    puts("flash: an answer that wasn't expected; is the program linked with libetcs_unit.a?");
    return 1;
}
