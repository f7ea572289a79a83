/* The unit over media that makers use: NOR flashes (c/include/etcs_nor.h), one of them with erase blocks in which two
 * slots would have their places, an FRAM, and an eMMC with a cache. Flashes with other blocks than they are set up for
 * are refused. Power is lost at any byte that is programmed, erased or written; inputs come while requests are carried
 * out; reads, programs, erasures, writes and syncs fail. What is on the medium then is a beginning of the events that
 * were taken, with each one whose output was released.
 *
 *     media [STEP]    loses power at each STEP-th byte (default: 1) of a life */
#include "etcs_executive.h"
#include "etcs_image.h"
#include "etcs_nor.h"
#include "medium.h"

enum { SLOTS = 3, SECTORS = 1 + 6 * SLOTS, SMALL = 4096, LARGE = 8192, BYTES = (1 + SLOTS) * LARGE };
enum { LIVES = 500, MOST_BYTES = 16000, MOST_EVENTS = 60000 };

/* ---- the chip: bytes, how many more of them may be changed until power is lost, and which call fails */

static uint8_t cells[BYTES];
static uint64_t left, calls_left, erasures,
    granule = SMALL, whole = BYTES; /* (what an erasure takes; after how many bytes places begin anew) */

/* How many of so many bytes are changed by this call; all, unless power is lost or the call fails. */
static size_t changed(size_t len, int *is_done) {
    size_t most = left < len ? (size_t)left : len;
    left -= most;
    *is_done = most == len && left > 0;
    if (left > 0 && calls_left > 0 && --calls_left == 0) {
        most = draw((uint32_t)len + 1);
        *is_done = 0;
    }
    return most;
}

static int chip_read(void *of, uint64_t at, uint8_t *bytes, size_t len) {
    int is_done = 0;
    (void)of;
    (void)changed(0, &is_done);
    if (is_done)
        memcpy(bytes, cells + at % whole, len);
    return is_done;
}

/* The byte at which it ends has some of its bits. */
static int nor_program(void *of, uint64_t at, const uint8_t *bytes, size_t len) {
    int is_done, is_same = 1;
    const size_t most = changed(len, &is_done);
    (void)of;
    at %= whole;
    for (size_t i = 0; i < most; i++) {
        cells[at + i] &= bytes[i];
        is_same &= cells[at + i] == bytes[i];
    }
    if (most < len)
        cells[at + most] &= (uint8_t)(bytes[most] | draw(256));
    is("programmed over what isn't erased", (uint64_t)is_same, 1);
    return is_done;
}

/* A part of an erasure: the first bytes, the last ones, or any bits of all. */
static int nor_erase(void *of, uint64_t at) {
    int is_done;
    const size_t len = (size_t)granule, most = changed(len, &is_done);
    const uint32_t way = draw(3);
    (void)of;
    at = at % whole / granule * granule;
    erasures++;
    for (size_t i = 0; i < len; i++)
        if (way == 2 && most < len)
            cells[at + i] |= (uint8_t)(draw((uint32_t)len) < most ? 0xFF : draw(256) & draw(256));
        else if ((way == 0 ? i : len - 1 - i) < most)
            cells[at + i] = 0xFF;
    return is_done;
}

static etcs_nor nor = {NULL, SMALL, 1 + SLOTS, chip_read, nor_program, nor_erase, 0};

static int as_it_is_read(void *of, uint64_t sector, uint8_t *bytes) {
    return chip_read(of, sector * ETCS_UNIT_SECTOR, bytes, ETCS_UNIT_SECTOR);
}

static int fram_carry_out(void *of, const etcs_unit_request_info *request, const uint8_t *bytes) {
    int is_done;
    const size_t len = (size_t)request->sectors * ETCS_UNIT_SECTOR, most = changed(len, &is_done);
    (void)of;
    if (most > 0)
        memcpy(cells + request->sector * ETCS_UNIT_SECTOR, bytes, most);
    return is_done;
}

/* The eMMC: what is read, and what is kept of it until a sync. */
static uint8_t kept[BYTES];

static int emmc_carry_out(void *of, const etcs_unit_request_info *request, const uint8_t *bytes) {
    const int is_done = fram_carry_out(of, request, bytes);
    if (is_done && request->kind == ETCS_REQUEST_SYNC)
        memcpy(kept, cells, BYTES);
    return is_done;
}

/* Power is lost: of each sector that isn't synced the old bytes are left, the new ones, some of both, or others. */
static void emmc_loses(void) {
    for (size_t at = 0; at < BYTES; at += ETCS_UNIT_SECTOR) {
        const size_t most = draw(2) ? draw(2) * ETCS_UNIT_SECTOR : draw(ETCS_UNIT_SECTOR);
        if (memcmp(cells + at, kept + at, ETCS_UNIT_SECTOR) == 0)
            continue;
        memcpy(cells + at, kept + at, most);
        if (draw(8) == 0)
            memset(cells + at, (int)draw(256), ETCS_UNIT_SECTOR);
    }
    memcpy(kept, cells, BYTES);
}

typedef struct {
    const char *name;
    int (*read_sector)(void *of, uint64_t sector, uint8_t *bytes);
    int (*carry_out)(void *of, const etcs_unit_request_info *request, const uint8_t *bytes);
    void (*loses)(void);
    int is_nor;
    uint32_t block;
} kind;

static const kind *on;

/* ---- what was taken and released */

/* The moment of each event that was taken, 0 of a power-up; the number of the next one; the newest whose output was
 * released. */
static uint64_t moments[MOST_EVENTS], next, released, cuts, refused, lists;

/* Reads the journal of the medium: what it holds was taken, and what was released is there. */
static void check(void) {
    static uint8_t image[SECTORS * ETCS_UNIT_SECTOR];
    etcs_journal journal;
    etcs_record record = {0};
    etcs_slot_start start = {0, 0, 0};
    uint64_t first = 0, newest = 0, is_same = 1, is_whole = 1;
    left = UINT64_MAX;
    calls_left = 0;
    for (uint64_t sector = 0; sector < SECTORS; sector++)
        is("a sector is read", (uint64_t)on->read_sector(&nor, sector, image + sector * ETCS_UNIT_SECTOR), 1);
    uint32_t status = etcs_journal_open(image, sizeof image, &journal);
    while (status == ETCS_UNIT_OK &&
           (status = etcs_journal_next(image, sizeof image, &journal, &record)) == ETCS_UNIT_OK) {
        first = first ? first : record.block;
        newest = record.event;
        is_same &= newest < next && record.moment_ms == moments[newest % MOST_EVENTS];
        const uint64_t slot = record.block % SLOTS, at = (1 + 6 * slot) * ETCS_UNIT_SECTOR;
        is_whole &= etcs_image_slot_start(image + at, sizeof image - at, SLOTS, slot, &start) == ETCS_UNIT_OK &&
                    start.number == record.block;
    }
    is("the journal is read to its end", status, ETCS_UNIT_END);
    is("its events are those that were taken", is_same, 1);
    is("each slot holds its block", is_whole || !on->is_nor, 1);
    is("it has what was released", newest >= released, 1);
    is("it has the blocks of the ring but one", record.block < first + SLOTS - 2 && first > 1, 0);
    next = first > 0 ? newest + 1 : 0;
}

/* Takes a moment, unless eight are pending. */
static void take(etcs_unit *unit) {
    static uint64_t moment;
    const uint32_t status = etcs_unit_clock(unit, ++moment);
    is("an input", status == ETCS_UNIT_OK || status == ETCS_UNIT_PENDING_FULL, 1);
    if (status == ETCS_UNIT_OK)
        moments[next++ % MOST_EVENTS] = moment;
}

/* The medium failed, or has no power: nothing more is taken or released. */
static uint32_t fails(etcs_unit *unit) {
    etcs_unit_output outputs[ETCS_UNIT_OUTPUTS];
    uint32_t count;
    is("it fails", etcs_unit_fail(unit), ETCS_UNIT_OK);
    is("an input then", etcs_unit_clock(unit, UINT32_MAX), ETCS_UNIT_INPUT_FAILED);
    is("a release then", etcs_unit_release(unit, outputs, ETCS_UNIT_OUTPUTS, &count), ETCS_UNIT_FAILED);
    return ETCS_UNIT_FAILED;
}

/* Reads a sector and hands it in; whether it could be read. */
static int hands_in(etcs_unit *unit, uint64_t sector) {
    uint8_t bytes[ETCS_UNIT_SECTOR];
    if (!on->read_sector(&nor, sector, bytes))
        return 0;
    is("a sector is handed in", etcs_unit_provide(unit, sector, bytes, sizeof bytes), ETCS_UNIT_OK);
    return 1;
}

/* Reads the sectors of a power-up. Where that fails there is no unit. */
static uint32_t reads_all(etcs_unit *unit) {
    static uint8_t bytes[ETCS_UNIT_REQUEST_BYTES];
    etcs_unit_request_info request;
    while (etcs_unit_request(unit, &request, bytes, sizeof bytes) == ETCS_UNIT_OK &&
           request.kind == ETCS_REQUEST_READ) {
        if (!hands_in(unit, request.sector)) {
            is("a power-up is abandoned", etcs_unit_fail(unit), ETCS_UNIT_OK);
            return ETCS_UNIT_FAILED;
        }
    }
    return ETCS_UNIT_OK;
}

/* Carries out the list, with inputs between its requests, and releases. */
static uint32_t carries_out(etcs_unit *unit) {
    static uint8_t bytes[ETCS_UNIT_REQUEST_BYTES];
    etcs_unit_output outputs[ETCS_UNIT_OUTPUTS];
    etcs_unit_request_info request;
    uint32_t index = 0, count = 0;
    while (etcs_unit_request(unit, &request, bytes, sizeof bytes) == ETCS_UNIT_OK) {
        if (request.kind == ETCS_REQUEST_READ ? !hands_in(unit, request.sector) : !on->carry_out(&nor, &request, bytes))
            return fails(unit);
        if (request.kind == ETCS_REQUEST_READ)
            continue;
        is("a request is done", etcs_unit_done(unit), ETCS_UNIT_OK);
        index++;
        if (draw(3) == 0)
            take(unit);
        if (on->is_nor && draw(8) == 0 && !etcs_nor_erase_ahead(&nor))
            return fails(unit);
    }
    lists += index > 0 ? 1 : 0;
    is("a release", etcs_unit_release(unit, outputs, ETCS_UNIT_OUTPUTS, &count), ETCS_UNIT_OK);
    released = count > 0 ? outputs[count - 1].event : released;
    return on->is_nor && draw(4) && !etcs_nor_erase_ahead(&nor) ? fails(unit) : (uint32_t)ETCS_UNIT_OK;
}

/* A life of so many flushes. */
static uint32_t life(uint32_t flushes) {
    etcs_unit unit = {0};
    uint32_t status = etcs_unit_begin(&unit, SECTORS, ETCS_COLD_UNKNOWN);
    nor.next = 0;
    if (status == ETCS_UNIT_OK)
        status = reads_all(&unit);
    if (status != ETCS_UNIT_OK)
        return status;
    moments[next++ % MOST_EVENTS] = 0;
    status = carries_out(&unit);
    for (uint32_t i = 0; i < flushes && status == ETCS_UNIT_OK; i++) {
        for (uint32_t input = draw(4); input > 0; input--)
            take(&unit);
        is("a preparation", etcs_unit_prepare(&unit), ETCS_UNIT_OK);
        status = carries_out(&unit);
    }
    is("a close", etcs_unit_close(&unit), ETCS_UNIT_OK);
    return status;
}

/* Such a life, in which power may be lost or a call fail, and what it leaves; whether it came to its end. */
static int lived(uint32_t flushes, uint64_t bytes, uint64_t calls) {
    left = bytes;
    calls_left = calls;
    const uint32_t status = life(flushes);
    const int is_lost = left == 0;
    is("its end", status == ETCS_UNIT_OK || (status == ETCS_UNIT_FAILED && (is_lost || calls > 0)), 1);
    cuts += is_lost ? 1 : 0;
    refused += status == ETCS_UNIT_FAILED && !is_lost ? 1 : 0;
    if (is_lost && on->loses)
        on->loses();
    check();
    return status == ETCS_UNIT_OK;
}

static void formats(void) {
    etcs_unit_request_info request;
    uint8_t bytes[ETCS_UNIT_SECTOR];
    left = UINT64_MAX;
    calls_left = next = released = 0;
    for (size_t i = 0; i < BYTES; i++)
        cells[i] = (uint8_t)draw(256);
    memset(cells + 3 * on->block, 0xFF, on->block);
    for (uint32_t i = 0; etcs_unit_format_request(SLOTS, i, &request, bytes, sizeof bytes) == ETCS_UNIT_OK; i++)
        is("a formatting", (uint64_t)on->carry_out(&nor, &request, bytes), 1);
}

/* Lives from the same bytes, in which power is lost at each STEP-th byte; after each another one. */
static void at_each_byte(uint64_t step) {
    static uint8_t before[BYTES];
    const uint64_t next_before = next, released_before = released;
    memcpy(before, cells, BYTES);
    for (uint64_t bytes = 1; bytes <= MOST_BYTES + 3 * (on->block - SMALL); bytes += step) {
        memcpy(cells, before, BYTES);
        memcpy(kept, cells, BYTES);
        next = next_before;
        released = released_before;
        (void)lived(1, bytes, 0);
        is("a life after it", (uint64_t)lived(1, UINT64_MAX, 0), 1);
    }
}

/* ---- the NOR flash as the medium of an executive, which erases ahead once a command is obeyed */

static etcs_executive executive;
static uint64_t now;

static uint64_t now_us(void *of) {
    (void)of;
    return now;
}

static void wait_until_us(void *of, uint64_t moment_us) {
    (void)of;
    now = moment_us;
}

static uint32_t take_inputs(void *of, etcs_unit *unit) {
    (void)of;
    take(unit);
    return ETCS_UNIT_OK;
}

static void obey(void *of, const etcs_unit_output *command) {
    (void)of;
    released = executive.released > 0 ? command->event : released;
}

static void feed(void *of) {
    (void)of;
    (void)etcs_nor_erase_ahead(&nor);
}

static void under_an_executive(void) {
    static const etcs_equipment equipment = {
        NULL,   &nor,          SECTORS,     100000, 50000, NULL, 0, etcs_nor_read_sector, etcs_nor_carry_out,
        now_us, wait_until_us, take_inputs, obey,   feed};
    for (uint32_t lives = 0; lives < LIVES / 4; lives++) {
        left = draw(4) ? 1 + draw(60000) : UINT64_MAX;
        nor.next = 0;
        moments[next++ % MOST_EVENTS] = 0;
        uint32_t fault = etcs_executive_begin(&executive, &equipment, ETCS_COLD_UNKNOWN);
        for (uint32_t cycle = 0; cycle < 12 && fault == ETCS_UNIT_OK; cycle++)
            fault = etcs_executive_cycle(&executive);
        is("no other fault", fault == ETCS_UNIT_OK || (fault == ETCS_UNIT_FAILED && left == 0), 1);
        cuts += left == 0 ? 1 : 0;
        etcs_executive_end(&executive);
        check();
    }
}

/* Requests that no unit makes, and flashes that are too small: nothing is done. */
static void refuses(void) {
    static const etcs_unit_request_info requests[] = {{0, 2, ETCS_REQUEST_WRITE},      {1, 5, ETCS_REQUEST_WRITE},
                                                      {2, 1, ETCS_REQUEST_WRITE},      {3, 5, ETCS_REQUEST_WRITE},
                                                      {2, 6, ETCS_REQUEST_WRITE},      {6, 1, ETCS_REQUEST_WRITE},
                                                      {SECTORS, 1, ETCS_REQUEST_WRITE}};
    static const uint64_t sizes[][2] = {
        {ETCS_NOR_BLOCK_BYTES - 1, 4}, {SMALL, 0}, {SMALL, 2}, {SMALL, 1048578}, {UINT64_MAX, 4}};
    static uint8_t before[BYTES], bytes[ETCS_UNIT_REQUEST_BYTES];
    memcpy(before, cells, BYTES);
    for (unsigned i = 0; i < sizeof requests / sizeof requests[0]; i++)
        is("a request of no unit", (uint64_t)etcs_nor_carry_out(&nor, &requests[i], bytes), 0);
    for (unsigned i = 0; i < sizeof sizes / sizeof sizes[0]; i++) {
        etcs_nor other = {NULL, sizes[i][0], sizes[i][1], chip_read, nor_program, nor_erase, 0};
        is("a flash of a wrong size", etcs_nor_check_blocks(&other), ETCS_NOR_BAD_SIZE);
        is("a sector of a flash that is too small", i < 2 && etcs_nor_read_sector(&other, 0, bytes), 0);
    }
    is("a sector after the last", (uint64_t)etcs_nor_read_sector(&nor, SECTORS, bytes), 0);
    is("nothing is done", (uint64_t)memcmp(before, cells, BYTES), 0);
}

/* Flashes set up with blocks of so many bytes, whose erasures take so many, and whose places begin anew after so many;
 * and each of the calls of a check fails. A flash with a journal stays as it is. */
static void checks_blocks(void) {
    static const uint64_t flashes[][4] = {{SMALL, SMALL, BYTES, ETCS_NOR_OK},
                                          {LARGE, LARGE, BYTES, ETCS_NOR_OK},
                                          {SMALL, LARGE, BYTES, ETCS_NOR_ERASED_MORE},
                                          {SMALL, 4 * SMALL, BYTES, ETCS_NOR_ERASED_MORE},
                                          {SMALL, SMALL / 2, BYTES, ETCS_NOR_ERASED_LESS},
                                          {SMALL * 3 / 2, SMALL, BYTES, ETCS_NOR_ERASED_LESS},
                                          {LARGE, SMALL, BYTES, ETCS_NOR_ERASED_LESS},
                                          {SMALL, SMALL, 2 * SMALL, ETCS_NOR_ERASED_MORE},
                                          {LARGE, LARGE, 3 * LARGE, ETCS_NOR_ERASED_MORE}};
    static uint8_t before[BYTES];
    uint32_t fault = ETCS_NOR_FAILED, call;
    formats();
    memcpy(before, cells, BYTES);
    is("a flash with a journal", etcs_nor_check_blocks(&nor), ETCS_NOR_HAS_JOURNAL);
    is("it is as it was", (uint64_t)memcmp(before, cells, BYTES), 0);
    for (unsigned i = 0; i < sizeof flashes / sizeof flashes[0]; i++) {
        formats();
        memset(cells, 0, 8); /* no journal's mark */
        nor.block_bytes = flashes[i][0], granule = flashes[i][1], whole = flashes[i][2];
        is("a flash is checked", etcs_nor_check_blocks(&nor), flashes[i][3]);
        granule = nor.block_bytes = on->block, whole = BYTES;
    }
    for (call = 1; fault == ETCS_NOR_FAILED && call < 10000; call++) {
        calls_left = call;
        fault = etcs_nor_check_blocks(&nor);
    }
    is("a check whose calls fail", fault, ETCS_NOR_OK);
    is("calls of a check", call > (1 + SLOTS) * (7 + on->block / 64), 1);
    is("a block that is checked isn't ready",
       memcmp(cells + nor.block_bytes + 6 * ETCS_UNIT_SECTOR, ETCS_NOR_READY, 8) == 0, 0);
    formats();
    is("a life on what was checked", (uint64_t)lived(10, UINT64_MAX, 0), 1);
}

int main(int count, char **words) {
    static const kind kinds[] = {{"NOR", etcs_nor_read_sector, etcs_nor_carry_out, NULL, 1, SMALL},
                                 {"NOR of larger blocks", etcs_nor_read_sector, etcs_nor_carry_out, NULL, 1, LARGE},
                                 {"FRAM", as_it_is_read, fram_carry_out, NULL, 0, SMALL},
                                 {"eMMC", as_it_is_read, emmc_carry_out, emmc_loses, 0, SMALL}};
    const uint64_t step = count > 1 ? strtoull(words[1], NULL, 10) : 1;
    for (unsigned i = 0; i < 4; i++) {
        on = &kinds[i];
        granule = nor.block_bytes = on->block;
        cuts = refused = 0;
        formats();
        lists = erasures = 0;
        is("a life", (uint64_t)lived(40, UINT64_MAX, 0), 1);
        is("a flush erases one block", on->is_nor && erasures != lists && erasures != lists + 1, 0);
        at_each_byte(step);
        for (uint32_t lives = 0; lives < LIVES; lives++) {
            const uint32_t flushes = draw(12);
            const uint64_t bytes = draw(2) ? UINT64_MAX : 1 + draw(60000);
            (void)lived(flushes, bytes, draw(2) ? 0 : 1 + draw(80));
        }
        if (on->is_nor) {
            under_an_executive();
            refuses();
            checks_blocks();
        }
        is("lives that lose power", cuts > LIVES / 8, 1);
        is("lives whose medium fails", refused > LIVES / 8, 1);
        printf("%s: power lost %llu times, %llu failures\n", on->name, (unsigned long long)cuts,
               (unsigned long long)refused);
    }
    return report("media", 100000);
}
