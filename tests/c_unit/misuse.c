/* Each wrong call that the library can detect is answered as c/include/etcs_unit.h says, and changes nothing. */
#include "medium.h"

static etcs_unit_output outputs[ETCS_UNIT_OUTPUTS];
static etcs_unit_request_info request;
static etcs_unit_state_info state;
static etcs_unit_why_info why;
static etcs_unit_driver_info driver;
static etcs_unit_refusals_info refusals;
static etcs_unit_preview_info preview;
static uint8_t bytes[ETCS_UNIT_REQUEST_BYTES];
static uint32_t count;
static const uint8_t telegram[ETCS_TELEGRAM_BYTES + 1] = {0x90, 0x00, 0x7F, 0x80, 0x20, 0x01, 0x7F, 0xC0};
static const uint8_t letters[17] = {'A', ' ', '~', 'B', 'C', 'D', 'E', 'F', 'G', 'H', 'I', 'J', 'K', 'L', 'M', 'N', 'O'};
/* 200 m, 160 km/h, 0.7 m/s^2, 1 s, category 15 */
static const etcs_train_data train = {20000, 160000, 70, 1000, 15};

/* Why actions aren't accepted in Stand By at standstill, by hand: nothing is valid, no trip is outstanding and no acknowledgement asked for. */
static const uint8_t refused_in_stand_by[ETCS_ACTIONS] = {
    0, 0, 0, 0, 0, 0, 0, /* a level is chosen, an item confirmed */
    ETCS_REFUSAL_IDENTITY_NOT_VALID, ETCS_REFUSAL_IDENTITY_NOT_VALID, /* start, shunting */
    ETCS_REFUSAL_OTHER_MODE, ETCS_REFUSAL_OTHER_MODE, /* shunting is left, override */
    ETCS_REFUSAL_NO_TRIP, ETCS_REFUSAL_NOT_REQUESTED, ETCS_REFUSAL_NOT_REQUESTED, ETCS_REFUSAL_NOT_REQUESTED, /* acknowledgements */
    ETCS_REFUSAL_OTHER_MODE /* the desk is closed */
};

/* What inputs would do, by hand: the telegram is of the only balise of group 2 of country 1, which is linked; nothing is announced. */
static void previews(etcs_unit *unit) {
    is("preview of a telegram", etcs_unit_preview_telegram(unit, telegram, 8, &preview), ETCS_UNIT_OK);
    is("it counts", preview.telegram, ETCS_TELEGRAM_COUNTS);
    is("it has no fault", preview.fault, ETCS_OK);
    is("its group closes", preview.count, 1);
    is("its country", preview.groups[0].country, 1);
    is("its group", preview.groups[0].group, 2);
    is("its outcome", preview.groups[0].outcome, ETCS_GROUP_LINKING_UNUSED);
    is("its direction", preview.groups[0].direction, ETCS_DIRECTION_NOT_KNOWN);
    is("nothing is asked for", preview.groups[0].reaction, ETCS_REACTION_NONE);
    is("no announcement", preview.groups[0].has_announcement, 0);
    is("preview of a byte", etcs_unit_preview_telegram(unit, telegram, 1, &preview), ETCS_UNIT_OK);
    is("it is no telegram", preview.telegram, ETCS_TELEGRAM_REFUSED);
    is("its fault", preview.fault, ETCS_TRUNCATED);
    is("no group closes", preview.count, 0);
    is("preview of a reading", etcs_unit_preview_odometer(unit, 8000, 300, &preview), ETCS_UNIT_OK);
    is("no telegram and no group", (uint64_t)preview.telegram | preview.count, 0);
}

static void null_pointers(medium *on) {
    etcs_unit unit = {0};
    const uint32_t wanted = ETCS_UNIT_NULL_POINTER;
    is("begin, no unit", etcs_unit_begin(NULL, 25, 0), wanted);
    is("provide, no unit", etcs_unit_provide(NULL, 0, bytes, ETCS_UNIT_SECTOR), wanted);
    is("provide, no bytes", etcs_unit_provide(&unit, 0, NULL, ETCS_UNIT_SECTOR), wanted);
    is("open, no unit", etcs_unit_open(NULL, on->bytes, on->len, 0), wanted);
    is("open, no image", etcs_unit_open(&unit, NULL, on->len, 0), wanted);
    is("telegram, no unit", etcs_unit_telegram(NULL, telegram, 8), wanted);
    is("telegram, no bytes", etcs_unit_telegram(&unit, NULL, 8), wanted);
    is("odometer, no unit", etcs_unit_odometer(NULL, 0, 0), wanted);
    is("clock, no unit", etcs_unit_clock(NULL, 0), wanted);
    is("action, no unit", etcs_unit_action(NULL, ETCS_START), wanted);
    is("identity, no unit", etcs_unit_identity(NULL, letters, 1), wanted);
    is("identity, no bytes", etcs_unit_identity(&unit, NULL, 1), wanted);
    is("running number, no unit", etcs_unit_running_number(NULL, 1), wanted);
    is("train data, no unit", etcs_unit_train_data(NULL, &train), wanted);
    is("train data, none", etcs_unit_train_data(&unit, NULL), wanted);
    is("prepare, no unit", etcs_unit_prepare(NULL), wanted);
    is("request, no unit", etcs_unit_request(NULL, &request, bytes, sizeof bytes), wanted);
    is("request, no output", etcs_unit_request(&unit, NULL, bytes, sizeof bytes), wanted);
    is("request, no bytes", etcs_unit_request(&unit, &request, NULL, 0), wanted);
    is("done, no unit", etcs_unit_done(NULL), wanted);
    is("fail, no unit", etcs_unit_fail(NULL), wanted);
    is("release, no unit", etcs_unit_release(NULL, outputs, 8, &count), wanted);
    is("release, no outputs", etcs_unit_release(&unit, NULL, 8, &count), wanted);
    is("release, no count", etcs_unit_release(&unit, outputs, 8, NULL), wanted);
    is("command, no outputs", etcs_unit_command(NULL, 1, outputs), wanted);
    is("command, no output", etcs_unit_command(outputs, 1, NULL), wanted);
    is("state, no unit", etcs_unit_state(NULL, &state), wanted);
    is("state, no output", etcs_unit_state(&unit, NULL), wanted);
    is("why, no unit", etcs_unit_why(NULL, &why), wanted);
    is("why, no output", etcs_unit_why(&unit, NULL), wanted);
    is("driver, no unit", etcs_unit_driver(NULL, &driver), wanted);
    is("driver, no output", etcs_unit_driver(&unit, NULL), wanted);
    is("refusals, no unit", etcs_unit_refusals(NULL, &refusals), wanted);
    is("refusals, no output", etcs_unit_refusals(&unit, NULL), wanted);
    is("preview of a telegram, no unit", etcs_unit_preview_telegram(NULL, telegram, 8, &preview), wanted);
    is("preview of a telegram, no bytes", etcs_unit_preview_telegram(&unit, NULL, 8, &preview), wanted);
    is("preview of a telegram, no output", etcs_unit_preview_telegram(&unit, telegram, 8, NULL), wanted);
    is("preview of a reading, no unit", etcs_unit_preview_odometer(NULL, 0, 0, &preview), wanted);
    is("preview of a reading, no output", etcs_unit_preview_odometer(&unit, 0, 0, NULL), wanted);
    is("close, no unit", etcs_unit_close(NULL), wanted);
    is("format, no output", etcs_unit_format_request(4, 0, NULL, bytes, 512), wanted);
    is("format, no bytes", etcs_unit_format_request(4, 0, &request, NULL, 512), wanted);
}

/* That a call that was refused wrote nothing where it would have put its answer. */
static void untouched(const char *what) {
    uint8_t other[ETCS_UNIT_REQUEST_BYTES];
    memset(other, 0xAA, sizeof other);
    is(what, (uint64_t)memcmp(outputs, other, sizeof outputs) | (uint64_t)memcmp(&count, other, sizeof count) |
       (uint64_t)memcmp(&request, other, sizeof request) | (uint64_t)memcmp(&state, other, sizeof state) |
       (uint64_t)memcmp(&why, other, sizeof why) | (uint64_t)memcmp(&driver, other, sizeof driver) |
       (uint64_t)memcmp(&refusals, other, sizeof refusals) | (uint64_t)memcmp(&preview, other, sizeof preview) |
       (uint64_t)memcmp(bytes, other, sizeof bytes), 0);
}

static void touch(void) {
    memset(outputs, 0xAA, sizeof outputs);
    memset(&count, 0xAA, sizeof count);
    memset(&request, 0xAA, sizeof request);
    memset(&state, 0xAA, sizeof state);
    memset(&why, 0xAA, sizeof why);
    memset(&driver, 0xAA, sizeof driver);
    memset(&refusals, 0xAA, sizeof refusals);
    memset(&preview, 0xAA, sizeof preview);
    memset(bytes, 0xAA, sizeof bytes);
}

static void takes_nothing(etcs_unit *unit);

/* Each call on a unit that isn't open, and whose power-up isn't under way. */
static void not_open(etcs_unit *unit) {
    const uint32_t wanted = ETCS_UNIT_NOT_OPEN;
    touch();
    is("provide, not open", etcs_unit_provide(unit, 0, bytes, ETCS_UNIT_SECTOR), wanted);
    is("provide of no byte, not open", etcs_unit_provide(unit, 0, bytes, 0), wanted);
    is("request, not open", etcs_unit_request(unit, &request, bytes, sizeof bytes), wanted);
    is("fail, not open", etcs_unit_fail(unit), wanted);
    is("close, not open", etcs_unit_close(unit), wanted);
    untouched("nothing is written then");
    takes_nothing(unit);
}

/* Each call that needs an open unit, on one that isn't open, also with a number that is out of range. */
static void takes_nothing(etcs_unit *unit) {
    const uint32_t wanted = ETCS_UNIT_NOT_OPEN;
    touch();
    is("telegram, not open", etcs_unit_telegram(unit, telegram, 8), wanted);
    is("telegram of no byte, not open", etcs_unit_telegram(unit, telegram, 0), wanted);
    is("odometer, not open", etcs_unit_odometer(unit, 0, 0), wanted);
    is("odometer out of range, not open", etcs_unit_odometer(unit, INT64_MAX, 0), wanted);
    is("clock, not open", etcs_unit_clock(unit, 0), wanted);
    is("action, not open", etcs_unit_action(unit, ETCS_START), wanted);
    is("action out of range, not open", etcs_unit_action(unit, 0), wanted);
    is("identity, not open", etcs_unit_identity(unit, letters, 1), wanted);
    is("running number, not open", etcs_unit_running_number(unit, 1), wanted);
    is("train data, not open", etcs_unit_train_data(unit, &train), wanted);
    is("prepare, not open", etcs_unit_prepare(unit), wanted);
    is("done, not open", etcs_unit_done(unit), wanted);
    is("release, not open", etcs_unit_release(unit, outputs, ETCS_UNIT_OUTPUTS, &count), wanted);
    is("state, not open", etcs_unit_state(unit, &state), wanted);
    is("why, not open", etcs_unit_why(unit, &why), wanted);
    is("driver, not open", etcs_unit_driver(unit, &driver), wanted);
    is("refusals, not open", etcs_unit_refusals(unit, &refusals), wanted);
    is("preview of a telegram, not open", etcs_unit_preview_telegram(unit, telegram, 8, &preview), wanted);
    is("preview of no telegram, not open", etcs_unit_preview_telegram(unit, telegram, 0, &preview), wanted);
    is("preview of a reading, not open", etcs_unit_preview_odometer(unit, 0, 0, &preview), wanted);
    untouched("a call on a unit that isn't open writes nothing");
}

/* The version into each room, also one that is too small. */
static void version(void) {
    const uint32_t wanted = ETCS_UNIT_NULL_POINTER;
    uint8_t out[ETCS_VERSION_BYTES];
    uint32_t len = 77;
    memset(out, 0xAA, sizeof out);
    is("version, nowhere to write", etcs_version(NULL, sizeof out, &len), wanted);
    is("version, nowhere to count", etcs_version(out, sizeof out, NULL), wanted);
    is("version, no room", etcs_version(out, 0, &len), ETCS_UNIT_NO_ROOM);
    is("version, room for 4", etcs_version(out, 4, &len), ETCS_UNIT_NO_ROOM);
    is("version, room without its end", etcs_version(out, 5, &len), ETCS_UNIT_NO_ROOM);
    is("a refusal writes nothing", out[0] == 0xAA && out[4] == 0xAA && len == 77, 1);
    is("version, just its room", etcs_version(out, 6, &len), ETCS_UNIT_OK);
    is("its length", len, 5);
    is("its text", (uint64_t)memcmp(out, "0.1.0", 6), 0);
    is("nothing after it", out[6], 0xAA);
    is("version", etcs_version(out, sizeof out, &len), ETCS_UNIT_OK);
    is("its length", len, 5);
}

/* What the headers say of limits and of the version, by hand. */
static void numbers(void) {
    const uint64_t found[] = {ETCS_TELEGRAM_BYTES, ETCS_MOVEMENT_CM_MOST, ETCS_SPEED_M_PER_H_MOST, ETCS_MOMENT_MS_MOST, ETCS_IDENTITY_BYTES, ETCS_IDENTITY_FIRST,
                              ETCS_IDENTITY_LAST, ETCS_RUNNING_NUMBER_MOST, ETCS_LENGTH_CM_MOST, ETCS_DECELERATION_CM_PER_S2_MOST, ETCS_REACTION_MS_MOST,
                              ETCS_CATEGORY_NONE};
    const uint64_t wanted[] = {104, 10000, 600000, UINT64_C(1099511627775), 16, ' ', '~', 99999999, 409500, 300, 10000, 15};
    for (size_t i = 0; i < sizeof wanted / sizeof wanted[0]; i++)
        is("a limit of the headers", found[i], wanted[i]);
    uint8_t out[ETCS_VERSION_BYTES];
    unsigned major = 0, minor = 0, patch = 0;
    uint32_t len = 0;
    is("the library's version", etcs_version(out, sizeof out, &len), ETCS_UNIT_OK);
    is("is that of the headers", strcmp((const char *)out, ETCS_VERSION) == 0, 1);
    is("has three numbers", (uint64_t)sscanf(ETCS_VERSION, "%u.%u.%u", &major, &minor, &patch), 3);
    is("as one number", ETCS_VERSION_NUMBER, 1000000 * major + 1000 * minor + patch);
}

/* So is the description of the build. */
static void build(void) {
    const uint32_t wanted = ETCS_UNIT_NULL_POINTER;
    uint8_t out[ETCS_BUILD_INFO_BYTES];
    uint32_t len = 77;
    memset(out, 0xAA, sizeof out);
    is("build, nowhere to write", etcs_build_info(NULL, sizeof out, &len), wanted);
    is("build, nowhere to count", etcs_build_info(out, sizeof out, NULL), wanted);
    is("build, no room", etcs_build_info(out, 15, &len), ETCS_UNIT_NO_ROOM);
    is("a refusal writes nothing", out[0] == 0xAA && out[14] == 0xAA && len == 77, 1);
    is("build", etcs_build_info(out, sizeof out, &len), ETCS_UNIT_OK);
    is("what it begins with", memcmp(out, "Gaknifur 0.1.0, ", 16) == 0 && len > 16 && len < sizeof out, 1);
    is("its end", len < sizeof out && out[len] == 0, 1);
    is("nothing after it", len + 1 >= sizeof out || out[len + 1] == 0xAA, 1);
    const uint32_t exact = len + 1;
    len = 77;
    memset(out, 0xAA, sizeof out);
    is("build, room for one less", etcs_build_info(out, exact - 1, &len), ETCS_UNIT_NO_ROOM);
    is("a refusal writes nothing", out[0] == 0xAA && len == 77, 1);
    is("build, just its room", etcs_build_info(out, exact, &len), ETCS_UNIT_OK);
    is("its length", len, exact - 1);
}

/* An opening that is refused leaves the unit as it was. */
static void refused(const char *what, uint32_t found, uint32_t wanted, const etcs_unit *unit) {
    is(what, found, wanted);
    is(what, unit->is_open, 0);
}

static void opening(medium *on) {
    etcs_unit unit = {0};
    uint8_t *other = (uint8_t *)calloc(1, on->len + ETCS_UNIT_SECTOR);
    is("the number of the interface", etcs_abi(), ETCS_UNIT_ABI);
    refused("cold 3", etcs_unit_open(&unit, on->bytes, on->len, 3), ETCS_UNIT_OUT_OF_RANGE, &unit);
    refused("cold -1", etcs_unit_open(&unit, on->bytes, on->len, UINT32_MAX), ETCS_UNIT_OUT_OF_RANGE, &unit);
    refused("no byte", etcs_unit_open(&unit, on->bytes, 0, 0), ETCS_UNIT_OPEN_NOT_FORMATTED, &unit);
    refused("511 bytes", etcs_unit_open(&unit, on->bytes, 511, 0), ETCS_UNIT_OPEN_NOT_FORMATTED, &unit);
    refused("zeros", etcs_unit_open(&unit, other, on->len, 0), ETCS_UNIT_OPEN_NOT_FORMATTED, &unit);
    memcpy(other, on->bytes, on->len);
    refused("a sector too few", etcs_unit_open(&unit, other, on->len - 512, 0), ETCS_UNIT_OPEN_DAMAGED, &unit);
    refused("a sector too many", etcs_unit_open(&unit, other, on->len + 512, 0), ETCS_UNIT_OPEN_DAMAGED, &unit);
    is("bytes after the last sector", etcs_unit_open(&unit, other, on->len + 511, ETCS_COLD_NOT_MOVED), ETCS_UNIT_OK);
    is("opened twice", etcs_unit_open(&unit, on->bytes, on->len, 0), ETCS_UNIT_IS_OPEN);
    is("closed before its power-up is done", etcs_unit_close(&unit), ETCS_UNIT_OK);
    is("closed twice", etcs_unit_close(&unit), ETCS_UNIT_NOT_OPEN);
    is("opened again", etcs_unit_open(&unit, on->bytes, on->len, ETCS_COLD_MOVED), ETCS_UNIT_OK);
    is("closed again", etcs_unit_close(&unit), ETCS_UNIT_OK);
    not_open(&unit);
    free(other);
}

/* ---- power-ups by sectors */

/* What is to be done next: to read a sector, which goes to `sector`. */
static uint32_t to_read(etcs_unit *unit, uint64_t *sector) {
    touch();
    const uint32_t status = etcs_unit_request(unit, &request, bytes, 0);
    if (status != ETCS_UNIT_OK)
        untouched("no request is written");
    *sector = status == ETCS_UNIT_OK ? request.sector : UINT64_MAX;
    if (status == ETCS_UNIT_OK)
        is("to read one sector", request.kind == ETCS_REQUEST_READ && request.sectors == 1 && bytes[0] == 0xAA, 1);
    return status;
}

/* An image that doesn't open: nothing is under way then, and no unit is open. */
static void refused_by_sectors(const char *what, const uint8_t *image, size_t len, uint32_t wanted) {
    etcs_unit unit = {0};
    uint64_t sector;
    uint32_t status = etcs_unit_begin(&unit, len / ETCS_UNIT_SECTOR, 0);
    while (status == ETCS_UNIT_OK && to_read(&unit, &sector) == ETCS_UNIT_OK)
        status = etcs_unit_provide(&unit, sector, image + sector * ETCS_UNIT_SECTOR, ETCS_UNIT_SECTOR);
    is(what, status, wanted);
    not_open(&unit);
}

static void power_ups_that_are_refused(const medium *on) {
    etcs_unit unit = {0};
    uint8_t *other = (uint8_t *)calloc(1, on->len + ETCS_UNIT_SECTOR);
    const uint64_t sectors = on->len / ETCS_UNIT_SECTOR;
    is("an older header", etcs_unit_begin_(&unit, sectors, 0, ETCS_UNIT_ABI - 1), ETCS_UNIT_OTHER_ABI);
    is("a newer header", etcs_unit_begin_(&unit, sectors, 0, ETCS_UNIT_ABI + 1), ETCS_UNIT_OTHER_ABI);
    is("cold 3", etcs_unit_begin(&unit, sectors, 3), ETCS_UNIT_OUT_OF_RANGE);
    is("cold -1", etcs_unit_begin(&unit, sectors, UINT32_MAX), ETCS_UNIT_OUT_OF_RANGE);
    not_open(&unit);
    refused_by_sectors("no sector", other, 0, ETCS_UNIT_OPEN_NOT_FORMATTED);
    refused_by_sectors("one sector of zeros", other, ETCS_UNIT_SECTOR, ETCS_UNIT_OPEN_NOT_FORMATTED);
    refused_by_sectors("zeros", other, on->len, ETCS_UNIT_OPEN_NOT_FORMATTED);
    memcpy(other, on->bytes, on->len);
    refused_by_sectors("one sector", other, ETCS_UNIT_SECTOR, ETCS_UNIT_OPEN_DAMAGED);
    refused_by_sectors("a sector too few", other, on->len - ETCS_UNIT_SECTOR, ETCS_UNIT_OPEN_DAMAGED);
    refused_by_sectors("a sector too many", other, on->len + ETCS_UNIT_SECTOR, ETCS_UNIT_OPEN_DAMAGED);
    is("the most sectors", etcs_unit_begin(&unit, UINT64_MAX, 0), ETCS_UNIT_OK);
    is("give up", etcs_unit_close(&unit), ETCS_UNIT_OK);
    not_open(&unit);
    is("another one", etcs_unit_begin(&unit, sectors, 0), ETCS_UNIT_OK);
    is("its read fails", etcs_unit_fail(&unit), ETCS_UNIT_OK);
    not_open(&unit);
    free(other);
}

/* The sector that a unit is handed wrongly: nothing of it is taken. */
static void provides_wrongly(etcs_unit *unit, uint64_t sectors, uint64_t sector) {
    uint64_t again = 77;
    is("no byte", etcs_unit_provide(unit, sector, bytes, 0), ETCS_UNIT_OUT_OF_RANGE);
    is("511 bytes", etcs_unit_provide(unit, sector, bytes, 511), ETCS_UNIT_OUT_OF_RANGE);
    is("513 bytes", etcs_unit_provide(unit, sector, bytes, 513), ETCS_UNIT_OUT_OF_RANGE);
    is("two sectors", etcs_unit_provide(unit, sector, bytes, 1024), ETCS_UNIT_OUT_OF_RANGE);
    is("the sector after the last one", etcs_unit_provide(unit, sectors, bytes, ETCS_UNIT_SECTOR), ETCS_UNIT_OUT_OF_RANGE);
    is("the greatest number", etcs_unit_provide(unit, UINT64_MAX, bytes, ETCS_UNIT_SECTOR), ETCS_UNIT_OUT_OF_RANGE);
    is("it is to be read as before", to_read(unit, &again), ETCS_UNIT_OK);
    is("the same", again, sector);
}

static void power_up_by_sectors(const medium *on) {
    etcs_unit unit = {0};
    const uint64_t sectors = on->len / ETCS_UNIT_SECTOR;
    uint64_t sector = 77, handed = 0;
    is("begin", etcs_unit_begin(&unit, sectors, ETCS_COLD_MOVED), ETCS_UNIT_OK);
    while (etcs_unit_state(&unit, &state) == ETCS_UNIT_NOT_OPEN && to_read(&unit, &sector) == ETCS_UNIT_OK) {
        is("the first one", handed > 0 || sector == 0, 1);
        is("begun twice", etcs_unit_begin(&unit, sectors, 0), ETCS_UNIT_IS_OPEN);
        is("opened meanwhile", etcs_unit_open(&unit, on->bytes, on->len, 0), ETCS_UNIT_IS_OPEN);
        takes_nothing(&unit);
        provides_wrongly(&unit, sectors, sector);
        is("provide", etcs_unit_provide(&unit, sector, sector_of(on, sector), ETCS_UNIT_SECTOR), ETCS_UNIT_OK);
        handed++;
    }
    is("it is open", etcs_unit_state(&unit, &state), ETCS_UNIT_OK);
    is("it read some", handed > 1, 1);
    is("a unit is open already", etcs_unit_begin(&unit, sectors, 0), ETCS_UNIT_IS_OPEN);
    is("prepare before the power-up is done", etcs_unit_prepare(&unit), ETCS_UNIT_REQUESTS_OWED);
    is("release before the power-up is done", etcs_unit_release(&unit, outputs, ETCS_UNIT_OUTPUTS, &count), ETCS_UNIT_REQUESTS_OWED);
    is("close", etcs_unit_close(&unit), ETCS_UNIT_OK);
    not_open(&unit);
}

/* A unit reads the gate of the slot that it writes next, where it doesn't know it: here of slots 2 and 3. */
static void reading(void) {
    medium on = formatted(40);
    etcs_unit unit = {0};
    uint64_t sector = 77;
    is("power-up", powered_up(&on, &unit, 0), ETCS_UNIT_OK);
    is("nothing is to be done", to_read(&unit, &sector), ETCS_UNIT_NO_SUCH_REQUEST);
    is("prepare of nothing", etcs_unit_prepare(&unit), ETCS_UNIT_OK);
    is("nothing is to be done", to_read(&unit, &sector), ETCS_UNIT_NO_SUCH_REQUEST);
    for (uint64_t slot = 2; slot < 4; slot++) {
        is("an input", etcs_unit_clock(&unit, slot), ETCS_UNIT_OK);
        is("prepare", etcs_unit_prepare(&unit), ETCS_UNIT_OK);
        is("to read", to_read(&unit, &sector), ETCS_UNIT_OK);
        is("the gate of the next slot", sector, 1 + 6 * slot);
        is("prepare again", etcs_unit_prepare(&unit), ETCS_UNIT_OK);
        is("state", etcs_unit_state(&unit, &state), ETCS_UNIT_OK);
        is("the input is pending as before", state.pending, 1);
        is("there is nothing to write", state.requests, 0);
        touch();
        is("release before the read", etcs_unit_release(&unit, outputs, ETCS_UNIT_OUTPUTS, &count), ETCS_UNIT_REQUESTS_OWED);
        is("a read isn't done so", etcs_unit_done(&unit), ETCS_UNIT_NO_SUCH_REQUEST);
        is("why before the read", etcs_unit_why(&unit, &why), ETCS_UNIT_NOT_RELEASED);
        memset(&state, 0xAA, sizeof state);
        untouched("a refusal writes nothing");
        is("to read after it", to_read(&unit, &sector), ETCS_UNIT_OK);
        is("the same gate", sector, 1 + 6 * slot);
        is("provide another sector", etcs_unit_provide(&unit, sector + 1, sector_of(&on, sector + 1), ETCS_UNIT_SECTOR), ETCS_UNIT_OK);
        is("to read after it", to_read(&unit, &sector), ETCS_UNIT_OK);
        is("the same gate after it", sector, 1 + 6 * slot);
        provides_wrongly(&unit, on.len / ETCS_UNIT_SECTOR, sector);
        is("another input", etcs_unit_clock(&unit, slot), ETCS_UNIT_OK);
        is("provide", etcs_unit_provide(&unit, sector, sector_of(&on, sector), ETCS_UNIT_SECTOR), ETCS_UNIT_OK);
        is("state", etcs_unit_state(&unit, &state), ETCS_UNIT_OK);
        is("both are flushed then", state.held, 2);
        is("carry out", carry_out(&on, &unit), ETCS_UNIT_OK);
        is("release", etcs_unit_release(&unit, outputs, ETCS_UNIT_OUTPUTS, &count), ETCS_UNIT_OK);
        is("two", count, 2);
        is("nothing is to be done after the release", to_read(&unit, &sector), ETCS_UNIT_NO_SUCH_REQUEST);
    }
    is("an input", etcs_unit_clock(&unit, 9), ETCS_UNIT_OK);
    is("prepare", etcs_unit_prepare(&unit), ETCS_UNIT_OK);
    is("to read", to_read(&unit, &sector), ETCS_UNIT_OK);
    is("the medium failed", etcs_unit_fail(&unit), ETCS_UNIT_OK);
    is("prepare after a failure", etcs_unit_prepare(&unit), ETCS_UNIT_FAILED);
    is("release after a failure", etcs_unit_release(&unit, outputs, ETCS_UNIT_OUTPUTS, &count), ETCS_UNIT_FAILED);
    is("provide after a failure", etcs_unit_provide(&unit, sector, sector_of(&on, sector), ETCS_UNIT_SECTOR), ETCS_UNIT_FAILED);
    is("close", etcs_unit_close(&unit), ETCS_UNIT_OK);
    free(on.bytes);
}

/* Train data with one number changed. */
static uint32_t with(etcs_unit *unit, int place, uint32_t number) {
    etcs_train_data data = train;
    memcpy((uint8_t *)&data + 4 * place, &number, sizeof number);
    return etcs_unit_train_data(unit, &data);
}

/* Each limit of an input, on a unit of its own, since eight inputs fill it. */
static void limits(medium *on) {
    static const struct { const char *what; uint32_t least, most; } fields[] = {
        {"length", 1, 409500}, {"greatest speed", 1, 600000}, {"deceleration", 1, 300}, {"reaction", 0, 10000}, {"category", 0, 15}};
    static const uint8_t unprintable[] = {0x1F, 0x7F, 0x80, 0xFF, 0};
    uint8_t *many = (uint8_t *)calloc(1, 1 << 20);
    etcs_unit unit = {0};
    is("power-up", powered_up(on, &unit, 0), ETCS_UNIT_OK);
    const uint32_t wanted = ETCS_UNIT_OUT_OF_RANGE;
    touch();
    is("a preview of no byte", etcs_unit_preview_telegram(&unit, telegram, 0, &preview), wanted);
    is("a preview of 105 bytes", etcs_unit_preview_telegram(&unit, telegram, 105, &preview), wanted);
    is("a preview of 1,048,576 bytes", etcs_unit_preview_telegram(&unit, many, 1 << 20, &preview), wanted);
    is("a preview of 10,001 cm", etcs_unit_preview_odometer(&unit, 10001, 1, &preview), wanted);
    is("a preview of -10,001 cm", etcs_unit_preview_odometer(&unit, -10001, 1, &preview), wanted);
    is("a preview of 600,001 m/h", etcs_unit_preview_odometer(&unit, 0, 600001, &preview), wanted);
    untouched("a preview out of range writes nothing");
    is("a telegram of no byte", etcs_unit_telegram(&unit, telegram, 0), wanted);
    is("a telegram of 105 bytes", etcs_unit_telegram(&unit, telegram, 105), wanted);
    is("a telegram of 1,048,576 bytes", etcs_unit_telegram(&unit, many, 1 << 20), wanted);
    is("a telegram of 1 byte", etcs_unit_telegram(&unit, telegram, 1), ETCS_UNIT_OK);
    is("a telegram of 104 bytes", etcs_unit_telegram(&unit, telegram, 104), ETCS_UNIT_OK);
    is("10,001 cm", etcs_unit_odometer(&unit, 10001, 1), wanted);
    is("-10,001 cm", etcs_unit_odometer(&unit, -10001, 1), wanted);
    is("the greatest number of cm", etcs_unit_odometer(&unit, INT64_MAX, 1), wanted);
    is("the least number of cm", etcs_unit_odometer(&unit, INT64_MIN, 1), wanted);
    is("600,001 m/h", etcs_unit_odometer(&unit, 0, 600001), wanted);
    is("the greatest number of m/h", etcs_unit_odometer(&unit, 0, UINT32_MAX), wanted);
    is("10,000 cm", etcs_unit_odometer(&unit, 10000, 600000), ETCS_UNIT_OK);
    is("-10,000 cm", etcs_unit_odometer(&unit, -10000, 0), ETCS_UNIT_OK);
    is("2^40 ms", etcs_unit_clock(&unit, UINT64_C(1) << 40), wanted);
    is("the greatest number of ms", etcs_unit_clock(&unit, UINT64_MAX), wanted);
    is("2^40 - 1 ms", etcs_unit_clock(&unit, (UINT64_C(1) << 40) - 1), ETCS_UNIT_OK);
    is("a clock that goes back", etcs_unit_clock(&unit, 5), ETCS_UNIT_CLOCK_BACK);
    is("flush", flushed(on, &unit, outputs, &count), ETCS_UNIT_OK);
    is("what was refused isn't pending", count, 5);
    is("action 0", etcs_unit_action(&unit, 0), wanted);
    is("action 16", etcs_unit_action(&unit, 16), wanted);
    is("action -1", etcs_unit_action(&unit, UINT32_MAX), wanted);
    for (uint32_t action = ETCS_CHOOSE_LEVEL_0; action <= ETCS_CLOSE_DESK; action++) {
        is("an action", etcs_unit_action(&unit, action), ETCS_UNIT_OK);
        is("its flush", flushed(on, &unit, outputs, &count), ETCS_UNIT_OK);
    }
    is("an identity of no byte", etcs_unit_identity(&unit, letters, 0), wanted);
    is("an identity of 17 bytes", etcs_unit_identity(&unit, letters, 17), wanted);
    is("an identity of 1,048,576 bytes", etcs_unit_identity(&unit, many, 1 << 20), wanted);
    for (size_t i = 0; i < sizeof unprintable; i++)
        is("an identity that can't be printed", etcs_unit_identity(&unit, &unprintable[i], 1), wanted);
    is("an identity of 16 bytes", etcs_unit_identity(&unit, letters, 16), ETCS_UNIT_OK);
    is("running number 100,000,000", etcs_unit_running_number(&unit, 100000000), wanted);
    is("running number 99,999,999", etcs_unit_running_number(&unit, 99999999), ETCS_UNIT_OK);
    for (int i = 0; i < 5; i++) {
        is(fields[i].what, with(&unit, i, fields[i].most + 1), wanted);
        is(fields[i].what, with(&unit, i, UINT32_MAX), wanted);
        is(fields[i].what, with(&unit, i, fields[i].most + 65536), wanted);
        if (fields[i].least > 0)
            is(fields[i].what, with(&unit, i, 0), wanted);
        is("flush", flushed(on, &unit, outputs, &count), ETCS_UNIT_OK);
        is(fields[i].what, with(&unit, i, fields[i].most), ETCS_UNIT_OK);
        is(fields[i].what, with(&unit, i, fields[i].least), ETCS_UNIT_OK);
    }
    is("close with two pending", etcs_unit_close(&unit), ETCS_UNIT_OK);
    free(many);
}

static void relaying(medium *on) {
    etcs_unit unit = {0};
    is("open", etcs_unit_open(&unit, on->bytes, on->len, 0), ETCS_UNIT_OK);
    is("state", etcs_unit_state(&unit, &state), ETCS_UNIT_OK);
    const uint32_t requests = (uint32_t)state.requests;
    is("there are requests", requests > 0, 1);
    is("none is done", state.done, 0);
    is("none is held back", state.held, 0);
    is("it hasn't failed", state.has_failed, 0);
    is("nothing is pending", state.pending, 0);
    is("no moment yet", state.moment_ms, 0);
    is("an exact start", (uint64_t)state.front_cm, 0);
    is("and five metres", state.uncertainty_cm, 500);
    is("before a release: event", state.last.event, 0);
    is("before a release: mode", state.last.mode, ETCS_STAND_BY);
    is("before a release: level", state.last.level, ETCS_LEVEL_INVALID);
    is("before a release: brake", state.last.brake, ETCS_BRAKE_EMERGENCY);
    touch();
    is("prepare before the power-up is done", etcs_unit_prepare(&unit), ETCS_UNIT_REQUESTS_OWED);
    is("release before the power-up is done", etcs_unit_release(&unit, outputs, 8, &count), ETCS_UNIT_REQUESTS_OWED);
    is("and again", etcs_unit_release(&unit, outputs, 8, &count), ETCS_UNIT_REQUESTS_OWED);
    is("room for 7", etcs_unit_release(&unit, outputs, 7, &count), ETCS_UNIT_NO_ROOM);
    is("room for none", etcs_unit_release(&unit, outputs, 0, &count), ETCS_UNIT_NO_ROOM);
    is("why, before the power-up is done", etcs_unit_why(&unit, &why), ETCS_UNIT_NOT_RELEASED);
    is("driver, before the power-up is done", etcs_unit_driver(&unit, &driver), ETCS_UNIT_NOT_RELEASED);
    untouched("a refusal writes nothing");
    is("state", etcs_unit_state(&unit, &state), ETCS_UNIT_OK);
    is("a refusal does no request", state.done, 0);
    for (uint32_t i = 0; i < requests; i++) {
        touch();
        const uint32_t status = etcs_unit_request(&unit, &request, bytes, 511);
        is("a write has no room in 511 bytes", status == ETCS_UNIT_NO_ROOM || (status == ETCS_UNIT_OK && request.kind == ETCS_REQUEST_SYNC), 1);
        if (status == ETCS_UNIT_NO_ROOM)
            untouched("a request that has no room writes nothing");
        is("a request", etcs_unit_request(&unit, &request, bytes, sizeof bytes), ETCS_UNIT_OK);
        is("its kind", request.kind == ETCS_REQUEST_WRITE || request.kind == ETCS_REQUEST_SYNC, 1);
        is("its sectors", request.kind == ETCS_REQUEST_WRITE ? request.sectors >= 1 && (request.sector + request.sectors) * 512 <= on->len
           : request.sectors == 0 && request.sector == 0, 1);
        if (request.kind == ETCS_REQUEST_WRITE)
            is("exactly its room", etcs_unit_request(&unit, &request, bytes, request.sectors * (size_t)512), ETCS_UNIT_OK);
        do_on(on, &request, bytes);
        if (i + 1 < requests)
            is("it is done", etcs_unit_done(&unit), ETCS_UNIT_OK);
    }
    is("state", etcs_unit_state(&unit, &state), ETCS_UNIT_OK);
    is("how many are done", state.done, requests - 1);
    is("release before the last one is done", etcs_unit_release(&unit, outputs, 8, &count), ETCS_UNIT_REQUESTS_OWED);
    touch();
    is("why, before the last one is done", etcs_unit_why(&unit, &why), ETCS_UNIT_NOT_RELEASED);
    is("driver, before the last one is done", etcs_unit_driver(&unit, &driver), ETCS_UNIT_NOT_RELEASED);
    untouched("why writes nothing before a release");
    is("an input meanwhile", etcs_unit_clock(&unit, 1), ETCS_UNIT_OK);
    is("state", etcs_unit_state(&unit, &state), ETCS_UNIT_OK);
    is("one is pending", state.pending, 1);
    is("the moment", state.moment_ms, 1);
    is("the last one", etcs_unit_done(&unit), ETCS_UNIT_OK);
    is("one more than there are", etcs_unit_done(&unit), ETCS_UNIT_NO_SUCH_REQUEST);
    touch();
    is("after the list", etcs_unit_request(&unit, &request, bytes, sizeof bytes), ETCS_UNIT_NO_SUCH_REQUEST);
    memset(&state, 0xAA, sizeof state);
    untouched("it writes nothing");
    is("state", etcs_unit_state(&unit, &state), ETCS_UNIT_OK);
    is("how many are done", state.done, requests);
    is("release", etcs_unit_release(&unit, outputs, 8, &count), ETCS_UNIT_OK);
    is("a power-up releases nothing", count, 0);
    touch();
    is("why, with one pending", etcs_unit_why(&unit, &why), ETCS_UNIT_NOT_RELEASED);
    is("driver, with one pending", etcs_unit_driver(&unit, &driver), ETCS_UNIT_NOT_RELEASED);
    count = 0xAAAAAAAA;
    untouched("why writes nothing with one pending");
    count = 0;
    is("done after a release", etcs_unit_done(&unit), ETCS_UNIT_NO_SUCH_REQUEST);
    for (int i = 0; i < 7; i++)
        is("eight may be pending", etcs_unit_clock(&unit, 2), ETCS_UNIT_OK);
    is("the ninth", etcs_unit_clock(&unit, 2), ETCS_UNIT_PENDING_FULL);
    is("the ninth, out of range", etcs_unit_action(&unit, 0), ETCS_UNIT_OUT_OF_RANGE);
    is("prepare", etcs_unit_prepare(&unit), ETCS_UNIT_OK);
    is("prepare twice", etcs_unit_prepare(&unit), ETCS_UNIT_REQUESTS_OWED);
    is("state", etcs_unit_state(&unit, &state), ETCS_UNIT_OK);
    is("eight are held back", state.held, 8);
    is("why, while they are held back", etcs_unit_why(&unit, &why), ETCS_UNIT_NOT_RELEASED);
    is("driver, while they are held back", etcs_unit_driver(&unit, &driver), ETCS_UNIT_NOT_RELEASED);
    is("none is pending", state.pending, 0);
    is("an input while requests are owed", etcs_unit_clock(&unit, 3), ETCS_UNIT_OK);
    is("carry out", carry_out(on, &unit), ETCS_UNIT_OK);
    is("release", etcs_unit_release(&unit, outputs, 8, &count), ETCS_UNIT_OK);
    is("all of them", count, 8);
    for (uint32_t i = 0; i < count; i++)
        is("the number of an event", outputs[i].event, outputs[0].event + i);
    is("state", etcs_unit_state(&unit, &state), ETCS_UNIT_OK);
    is("the last output", (uint64_t)memcmp(&state.last, &outputs[7], sizeof outputs[7]), 0);
    is("the list is empty", state.requests, 0);
    is("flush of one", flushed(on, &unit, outputs, &count), ETCS_UNIT_OK);
    is("one", count, 1);
    /* by hand: Stand By, no train may run; the driver hasn't revalidated */
    is("why", etcs_unit_why(&unit, &why), ETCS_UNIT_OK);
    is("its output", (uint64_t)memcmp(&why.output, &outputs[0], sizeof outputs[0]), 0);
    is("what decides the limit", why.limit_cause, ETCS_LIMIT_NO_SPEED);
    is("it has no place, no number, no target and no release speed", (uint64_t)why.has_place | why.has_restriction | why.has_target | why.has_release, 0);
    is("the service brake", why.service_brake_m_per_h, 5000);
    is("the emergency brake", why.emergency_brake_m_per_h, 10000);
    for (int i = 0; i < ETCS_BRAKE_CAUSES; i++)
        is("a cause", why.holds[i], i == ETCS_CAUSE_NOT_REVALIDATED);
    is("no acknowledgement", (uint64_t)why.on_sight | why.shunting | why.level_0, ETCS_ACKNOWLEDGEMENT_NONE);
    /* by hand: Stand By at standstill, where a level may be chosen, and each item confirmed, since a life before entered them (limits) */
    is("driver", etcs_unit_driver(&unit, &driver), ETCS_UNIT_OK);
    is("its mode", driver.mode, ETCS_STAND_BY);
    for (uint32_t i = 0; i < ETCS_ACTIONS; i++)
        is("an action that is accepted", driver.accepts[i], i >= ETCS_CHOOSE_LEVEL_0 && i <= ETCS_CONFIRM_LEVEL);
    is("why, again", etcs_unit_why(&unit, &why), ETCS_UNIT_OK);
    is("refusals", etcs_unit_refusals(&unit, &refusals), ETCS_UNIT_OK);
    for (uint32_t i = 1; i < ETCS_ACTIONS; i++)
        is("why an action isn't accepted", refusals.actions[i], refused_in_stand_by[i]);
    is("an entry is", (uint64_t)refusals.identity | refusals.running_number | refusals.train_data, ETCS_REFUSAL_NONE);
    previews(&unit);
    /* -30 cm and 8,000 cm: the twentieth part of a path of 8,030 cm is 401.5 */
    is("backward", etcs_unit_odometer(&unit, -30, 300), ETCS_UNIT_OK);
    is("forward", etcs_unit_odometer(&unit, 8000, 300), ETCS_UNIT_OK);
    is("state", etcs_unit_state(&unit, &state), ETCS_UNIT_OK);
    is("the front", (uint64_t)state.front_cm, 7970);
    is("its uncertainty", state.uncertainty_cm, 902);
    is("two are pending", state.pending, 2);
    is("the moment", state.moment_ms, 3);
    is("flush of two", flushed(on, &unit, outputs, &count), ETCS_UNIT_OK);
    is("two", count, 2);
    is("state", etcs_unit_state(&unit, &state), ETCS_UNIT_OK);
    is("the front is the same", (uint64_t)state.front_cm, 7970);
    is("prepare of nothing", etcs_unit_prepare(&unit), ETCS_UNIT_OK);
    is("its list", etcs_unit_request(&unit, &request, bytes, sizeof bytes), ETCS_UNIT_NO_SUCH_REQUEST);
    is("its release", etcs_unit_release(&unit, outputs, 8, &count), ETCS_UNIT_OK);
    is("nothing", count, 0);
    is("close", etcs_unit_close(&unit), ETCS_UNIT_OK);
}

/* After a failure the requests of the list go on to be answered, and mean nothing: nothing is released. */
static void failing_within(medium *on) {
    etcs_unit unit = {0};
    is("power-up", powered_up(on, &unit, 0), ETCS_UNIT_OK);
    is("an input", etcs_unit_clock(&unit, 1), ETCS_UNIT_OK);
    is("prepare", etcs_unit_prepare(&unit), ETCS_UNIT_OK);
    is("the medium failed", etcs_unit_fail(&unit), ETCS_UNIT_OK);
    uint32_t requests = 0;
    for (; etcs_unit_request(&unit, &request, bytes, sizeof bytes) == ETCS_UNIT_OK && requests < 100; requests++)
        is("a request after a failure", request.kind == ETCS_REQUEST_READ ? etcs_unit_provide(&unit, request.sector, on->bytes + request.sector * ETCS_UNIT_SECTOR,
           ETCS_UNIT_SECTOR) : etcs_unit_done(&unit), ETCS_UNIT_OK);
    is("there are some", requests > 0 && requests < 100, 1);
    is("the end of the list", etcs_unit_request(&unit, &request, bytes, sizeof bytes), ETCS_UNIT_NO_SUCH_REQUEST);
    is("its release", etcs_unit_release(&unit, outputs, 8, &count), ETCS_UNIT_FAILED);
    is("close", etcs_unit_close(&unit), ETCS_UNIT_OK);
}

static void failing(medium *on) {
    etcs_unit unit = {0};
    is("power-up", powered_up(on, &unit, 0), ETCS_UNIT_OK);
    is("an input", etcs_unit_clock(&unit, 1), ETCS_UNIT_OK);
    is("prepare", etcs_unit_prepare(&unit), ETCS_UNIT_OK);
    is("carry out", carry_out(on, &unit), ETCS_UNIT_OK);
    is("the medium failed", etcs_unit_fail(&unit), ETCS_UNIT_OK);
    touch();
    is("why after a failure", etcs_unit_why(&unit, &why), ETCS_UNIT_NOT_RELEASED);
    is("driver after a failure", etcs_unit_driver(&unit, &driver), ETCS_UNIT_NOT_RELEASED);
    is("release after a failure", etcs_unit_release(&unit, outputs, 8, &count), ETCS_UNIT_FAILED);
    is("room for 7 after a failure", etcs_unit_release(&unit, outputs, 7, &count), ETCS_UNIT_NO_ROOM);
    untouched("nothing is released after a failure");
    is("prepare after a failure", etcs_unit_prepare(&unit), ETCS_UNIT_FAILED);
    is("an input after a failure", etcs_unit_clock(&unit, 2), ETCS_UNIT_INPUT_FAILED);
    is("one out of range", etcs_unit_action(&unit, 16), ETCS_UNIT_OUT_OF_RANGE);
    is("state", etcs_unit_state(&unit, &state), ETCS_UNIT_OK);
    is("it has failed", state.has_failed, 1);
    is("once more", etcs_unit_fail(&unit), ETCS_UNIT_OK);
    is("close", etcs_unit_close(&unit), ETCS_UNIT_OK);
    is("opened again", powered_up(on, &unit, 0), ETCS_UNIT_OK);
    is("an input", etcs_unit_clock(&unit, 1), ETCS_UNIT_OK);
    is("flush", flushed(on, &unit, outputs, &count), ETCS_UNIT_OK);
    is("one", count, 1);
    is("close", etcs_unit_close(&unit), ETCS_UNIT_OK);
}

static void formatting(void) {
    touch();
    is("no slot", etcs_unit_format_request(0, 0, &request, bytes, 512), ETCS_UNIT_BAD_SLOTS);
    is("1 slot", etcs_unit_format_request(1, 0, &request, bytes, 512), ETCS_UNIT_BAD_SLOTS);
    is("1,048,577 slots", etcs_unit_format_request(1048577, 0, &request, bytes, 512), ETCS_UNIT_BAD_SLOTS);
    is("4,294,967,295 slots", etcs_unit_format_request(UINT32_MAX, 0, &request, bytes, 512), ETCS_UNIT_BAD_SLOTS);
    is("far after the last one", etcs_unit_format_request(2, UINT32_MAX, &request, bytes, 512), ETCS_UNIT_NO_SUCH_REQUEST);
    is("room for 511 bytes", etcs_unit_format_request(2, 0, &request, bytes, 511), ETCS_UNIT_NO_ROOM);
    untouched("a refusal of a format writes nothing");
    is("1,048,576 slots", etcs_unit_format_request(1048576, 0, &request, bytes, 512), ETCS_UNIT_OK);
    uint32_t last = 0, index = 0, first = 0;
    for (; etcs_unit_format_request(2, index, &request, bytes, 512) == ETCS_UNIT_OK && index < 100; index++) {
        last = (uint32_t)request.kind;
        if (request.kind == ETCS_REQUEST_WRITE)
            first = request.sector == 0;
    }
    is("the requests of a format end", index < 100, 1);
    is("the last one is a sync", last, ETCS_REQUEST_SYNC);
    is("the first sector is written last", first, 1);
}

/* What an answer is, of the driver's values and of the equipment's: by hand, from what etcs_unit.h says of each status. */
static void kinds(void) {
    static const uint8_t mistakes[] = {10, 22, 41, 247, 249, 251, 252, 253};
    for (uint32_t status = 0; status < 300; status++) {
        uint32_t driver = status == 0 ? ETCS_KIND_OK : ETCS_KIND_FAULT, equipment;
        for (size_t i = 0; i < sizeof mistakes; i++)
            if (mistakes[i] == status)
                driver = ETCS_KIND_MISTAKE;
        equipment = driver;
        if (status == 255)
            driver = ETCS_KIND_MISTAKE;
        is("kind of an answer to the driver", etcs_status_classify(status, ETCS_OF_DRIVER), driver);
        is("kind of an answer to the equipment", etcs_status_classify(status, ETCS_OF_EQUIPMENT), equipment);
        is("kind of an answer to who knows", etcs_status_classify(status, 7), equipment);
    }
}

/* The most restrictive brake of a release holds, wherever it is in it; all else is that of the newest output. */
static void commands(void) {
    etcs_unit_output some[ETCS_UNIT_OUTPUTS + 1] = {{0, 0, 0, 0, 0, 0}}, command = {7, 7, ETCS_STAND_BY, ETCS_LEVEL_1, ETCS_BRAKE_SERVICE, 7};
    is("nothing is released", etcs_unit_command(some, 0, &command), ETCS_UNIT_OK);
    is("the command stays", command.event == 7 && command.brake == ETCS_BRAKE_SERVICE, 1);
    for (uint32_t n = 1; n <= ETCS_UNIT_OUTPUTS; n++) {
        for (uint32_t at = 0; at < n; at++) {
            for (uint32_t i = 0; i < n; i++) {
                some[i].event = 10 + i;
                some[i].limit_m_per_h = 1000 * (i + 1);
                some[i].brake = i == at ? ETCS_BRAKE_EMERGENCY : i % 2 ? ETCS_BRAKE_SERVICE : ETCS_BRAKE_NONE;
            }
            is("outputs are released", etcs_unit_command(some, n, &command), ETCS_UNIT_OK);
            is("the brake", command.brake, ETCS_BRAKE_EMERGENCY);
            is("the event", command.event, 9 + n);
            is("the limit", command.limit_m_per_h, 1000 * n);
        }
    }
    some[0].brake = ETCS_BRAKE_SERVICE;
    some[1].brake = ETCS_BRAKE_NONE;
    is("two are released", etcs_unit_command(some, 2, &command), ETCS_UNIT_OK);
    is("the service brake holds", command.brake, ETCS_BRAKE_SERVICE);
    some[1].brake = 3;
    is("no such brake", etcs_unit_command(some, 2, &command), ETCS_UNIT_OUT_OF_RANGE);
    is("too many", etcs_unit_command(some, ETCS_UNIT_OUTPUTS + 1, &command), ETCS_UNIT_OUT_OF_RANGE);
    is("the command stays after both", command.event == 11 && command.brake == ETCS_BRAKE_SERVICE, 1);
}

int main(void) {
    medium on = formatted(4);
    commands();
    kinds();
    null_pointers(&on);
    version();
    numbers();
    build();
    etcs_unit unit = {0};
    not_open(&unit);
    opening(&on);
    power_ups_that_are_refused(&on);
    power_up_by_sectors(&on);
    reading();
    limits(&on);
    relaying(&on);
    failing_within(&on);
    failing(&on);
    formatting();
    free(on.bytes);
    return report("misuse", 1500);
}
