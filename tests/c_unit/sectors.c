/* A unit whose caller reads ahead and whose reads, writes and syncs fail, along with one that is opened by
 * etcs_unit_open and whose reads are answered at once: the same answers, requests and outputs, and after each flush,
 * each loss of power and each failure the same medium. Inputs come while a list is carried out. */
#include "medium.h"

enum { LIVES = 120, EVENTS = 60, SLOTS = 9 };

static uint32_t handed_in;

/* Whether a sector is to be read next; which one goes to `sector`. */
static int is_to_read(etcs_unit *unit, uint64_t *sector) {
    static uint8_t bytes[ETCS_UNIT_REQUEST_BYTES];
    etcs_unit_request_info request;
    const int is_read =
        etcs_unit_request(unit, &request, bytes, sizeof bytes) == ETCS_UNIT_OK && request.kind == ETCS_REQUEST_READ;
    *sector = is_read ? request.sector : UINT64_MAX;
    is("a read is of one sector", is_read ? request.sectors : 1, 1);
    return is_read;
}

/* Hands in what the medium holds of this sector, which is to be read. */
static uint32_t hand_in(const medium *on, etcs_unit *unit, uint64_t sector) {
    is("the medium has it", sector < on->len / ETCS_UNIT_SECTOR, 1);
    if (sector >= on->len / ETCS_UNIT_SECTOR)
        return ETCS_UNIT_FAILED;
    handed_in++;
    return etcs_unit_provide(unit, sector, sector_of(on, sector), ETCS_UNIT_SECTOR);
}

/* Powers up, sector by sector. */
static uint32_t opened(const medium *on, etcs_unit *unit, uint32_t cold) {
    uint64_t sector;
    uint32_t status = etcs_unit_begin(unit, on->len / ETCS_UNIT_SECTOR, cold);
    while (status == ETCS_UNIT_OK && is_to_read(unit, &sector))
        status = hand_in(on, unit, sector);
    return status;
}

/* An input of a life. */
static uint32_t take_one(etcs_unit *unit, uint32_t kind, uint32_t number, uint64_t moment) {
    static const uint8_t telegram[] = {0x90, 0x00, 0x7F, 0x80, 0x20, 0x01, 0x7F, 0xC0};
    switch (kind) {
    case 0: return etcs_unit_odometer(unit, number, 1 + number % 1000);
    case 1: return etcs_unit_telegram(unit, telegram, 1 + number % 8);
    case 2: return etcs_unit_action(unit, number % 17);
    case 3: return etcs_unit_running_number(unit, number);
    default: return etcs_unit_clock(unit, moment);
    }
}

typedef struct {
    medium on;
    etcs_unit unit;
} side;

/* The last moment of this life. */
static uint64_t moment;

/* An input on both sides. */
static void take_both(side *plain, side *few) {
    const uint32_t kind = draw(6), number = draw(2000);
    moment += 100;
    is("an input", take_one(&few->unit, kind, number, moment), take_one(&plain->unit, kind, number, moment));
}

/* How often the medium failed. */
static uint32_t failures;

/* The medium fails: nothing is taken or released any more. */
static void fail(etcs_unit *unit) {
    etcs_unit_output outputs[ETCS_UNIT_OUTPUTS];
    uint32_t count;
    failures++;
    is("a failure", etcs_unit_fail(unit), ETCS_UNIT_OK);
    is("an input after it", etcs_unit_clock(unit, moment), ETCS_UNIT_INPUT_FAILED);
    is("a preparation after it", etcs_unit_prepare(unit), ETCS_UNIT_FAILED);
    is("a release after it", etcs_unit_release(unit, outputs, ETCS_UNIT_OUTPUTS, &count), ETCS_UNIT_FAILED);
}

/* The last sector that was written: the gate of the newest block. */
static uint64_t last_written;

/* Reads the gate of the next slot ahead: six sectors after the last one that was written, or else the first gate. */
static void read_ahead(side *few) {
    const uint64_t next = last_written + 6, sector = next < few->on.len / ETCS_UNIT_SECTOR ? next : 1;
    is("a sector is read ahead", etcs_unit_provide(&few->unit, sector, sector_of(&few->on, sector), ETCS_UNIT_SECTOR),
       ETCS_UNIT_OK);
}

/* Prepares, and answers the reads at once. */
static uint32_t prepared_plainly(side *plain) {
    uint64_t sector;
    uint32_t status = etcs_unit_prepare(&plain->unit);
    while (status == ETCS_UNIT_OK && is_to_read(&plain->unit, &sector))
        status = etcs_unit_provide(&plain->unit, sector, sector_of(&plain->on, sector), ETCS_UNIT_SECTOR);
    return status;
}

/* Prepares; the sector of a gate is to be read at most once. Where its read fails, so does the unit. */
static uint32_t prepared_once(side *few) {
    uint64_t sector;
    uint32_t status = etcs_unit_prepare(&few->unit);
    const int is_read = status == ETCS_UNIT_OK && is_to_read(&few->unit, &sector);
    if (is_read && draw(20) == 0) {
        fail(&few->unit);
        return ETCS_UNIT_FAILED;
    }
    if (is_read)
        status = hand_in(&few->on, &few->unit, sector);
    is("none is to be read then", (uint64_t)(status == ETCS_UNIT_OK && is_to_read(&few->unit, &sector)), 0);
    return status;
}

/* Carries out so many requests of the list, and a part of the next one, or all; those of both sides are the same.
 * Whether that was all. */
static int carried_out(side *plain, side *few, uint32_t most) {
    static uint8_t bytes[2][ETCS_UNIT_REQUEST_BYTES];
    etcs_unit_request_info request[2];
    for (uint32_t count = 0;; count++) {
        memset(bytes, 0, sizeof bytes);
        memset(request, 0, sizeof request);
        const uint32_t status = etcs_unit_request(&plain->unit, &request[0], bytes[0], sizeof bytes[0]);
        is("a request", etcs_unit_request(&few->unit, &request[1], bytes[1], sizeof bytes[1]), status);
        if (status != ETCS_UNIT_OK)
            return 1;
        is("its sectors", (uint64_t)memcmp(&request[0], &request[1], sizeof request[0]), 0);
        is("its bytes", (uint64_t)memcmp(bytes[0], bytes[1], sizeof bytes[0]), 0);
        if (request[1].kind == ETCS_REQUEST_WRITE)
            last_written = request[1].sector;
        if (count == most)
            request[0].sectors = request[1].sectors = draw((uint32_t)request[0].sectors + 1);
        do_on(&plain->on, &request[0], bytes[0]);
        do_on(&few->on, &request[1], bytes[1]);
        if (count == most)
            return 0;
        is("done", etcs_unit_done(&plain->unit), ETCS_UNIT_OK);
        is("done", etcs_unit_done(&few->unit), ETCS_UNIT_OK);
        if (draw(6) == 0)
            take_both(plain, few);
    }
}

/* Carries out and releases on both sides, unless power is lost or the medium fails within some request; whether both go
 * on. */
static int released(side *plain, side *few, int cut) {
    static etcs_unit_output outputs[2][ETCS_UNIT_OUTPUTS];
    uint32_t count[2] = {0, 0};
    const uint32_t most = cut ? draw(6) : UINT32_MAX;
    const int is_all = carried_out(plain, few, most);
    is("the same medium", (uint64_t)memcmp(plain->on.bytes, few->on.bytes, plain->on.len), 0);
    if (!is_all) {
        if (draw(2)) {
            fail(&plain->unit);
            fail(&few->unit);
        }
        return 0;
    }
    memset(outputs, 0, sizeof outputs);
    is("release", etcs_unit_release(&plain->unit, outputs[0], ETCS_UNIT_OUTPUTS, &count[0]), ETCS_UNIT_OK);
    is("release", etcs_unit_release(&few->unit, outputs[1], ETCS_UNIT_OUTPUTS, &count[1]), ETCS_UNIT_OK);
    is("outputs", count[1], count[0]);
    is("outputs", (uint64_t)memcmp(outputs[0], outputs[1], sizeof outputs[0]), 0);
    return 1;
}

/* In how many flushes a sector was read. */
static uint32_t wants;

/* A power-up whose read fails after some sectors is abandoned, and writes nothing. */
static void give_up(const medium *on, uint32_t cold) {
    etcs_unit unit = {NULL, 0};
    uint64_t sector;
    is("a power-up", etcs_unit_begin(&unit, on->len / ETCS_UNIT_SECTOR, cold), ETCS_UNIT_OK);
    for (uint32_t sectors = draw(5); is_to_read(&unit, &sector) && sectors > 0; sectors--)
        is("a sector of it", hand_in(on, &unit, sector), ETCS_UNIT_OK);
    is("no unit is open", etcs_unit_prepare(&unit), ETCS_UNIT_NOT_OPEN);
    is("it is abandoned", draw(2) ? etcs_unit_fail(&unit) : etcs_unit_close(&unit), ETCS_UNIT_OK);
    is("there is none then", etcs_unit_close(&unit), ETCS_UNIT_NOT_OPEN);
}

/* One life on both sides, up to its end, a loss of power or a failure. */
static void life(side *plain, side *few) {
    const uint32_t cold = draw(3);
    moment = 0;
    if (draw(4) == 0)
        give_up(&few->on, cold);
    handed_in = 0;
    is("open", etcs_unit_open(&plain->unit, plain->on.bytes, plain->on.len, cold), ETCS_UNIT_OK);
    is("open sector by sector", opened(&few->on, &few->unit, cold), ETCS_UNIT_OK);
    /* the first sector, of each slot the gate and the head, the newest block's six and the next gate */
    is("few sectors are read", handed_in <= 1 + 2 * SLOTS + 6 + 1, 1);
    int goes = released(plain, few, draw(10) == 0);
    for (uint32_t event = 0; goes && event < EVENTS; event++) {
        const uint32_t before = handed_in;
        take_both(plain, few);
        if (draw(4) != 0)
            continue;
        const int is_ahead = event % 2 == 0;
        if (is_ahead)
            read_ahead(few);
        const uint32_t status = prepared_once(few);
        if (status == ETCS_UNIT_FAILED)
            break;
        is("prepare", status, prepared_plainly(plain));
        is("one sector at most, or none that was read ahead", handed_in <= before + (is_ahead ? 0 : 1), 1);
        wants += handed_in > before;
        goes = released(plain, few, draw(20) == 0);
    }
    is("close", etcs_unit_close(&plain->unit), ETCS_UNIT_OK);
    is("close", etcs_unit_close(&few->unit), ETCS_UNIT_OK);
}

/* What no power-up can be of: the answers are those of etcs_unit_open. */
static void refusals(const medium *on) {
    medium bad = {(uint8_t *)malloc(on->len), on->len};
    etcs_unit unit = {NULL, 0};
    for (uint32_t i = 0; i < 600; i++) {
        const uint32_t at =
            draw(4) ? draw(SLOTS) * 6 * ETCS_UNIT_SECTOR + draw(3 * ETCS_UNIT_SECTOR) : draw((uint32_t)bad.len);
        memcpy(bad.bytes, on->bytes, on->len);
        bad.len = draw(8) ? on->len : draw((uint32_t)on->len / ETCS_UNIT_SECTOR) * ETCS_UNIT_SECTOR;
        bad.bytes[draw(8) ? at : draw(40)] ^= (uint8_t)(1 + draw(255));
        const uint32_t wanted = etcs_unit_open(&unit, bad.bytes, bad.len, ETCS_COLD_UNKNOWN);
        etcs_unit_close(&unit);
        is("a medium that was altered", opened(&bad, &unit, ETCS_COLD_UNKNOWN), wanted);
        is("and the unit", etcs_unit_close(&unit), wanted == ETCS_UNIT_OK ? ETCS_UNIT_OK : ETCS_UNIT_NOT_OPEN);
    }
    free(bad.bytes);
}

int main(void) {
    side plain = {formatted(SLOTS), {NULL, 0}}, few = {formatted(SLOTS), {NULL, 0}};
    for (uint32_t i = 0; i < LIVES; i++)
        life(&plain, &few);
    is("a sector is read in many of the other flushes", wants >= 100, 1);
    is("the medium fails", failures >= 60, 1);
    refusals(&plain.on);
    free(plain.on.bytes);
    free(few.on.bytes);
    return report("over sectors", 80000);
}
