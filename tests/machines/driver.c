/* Executes a script of calls of the library, and prints what each answers: the same program on every machine (platform.h has what differs), so
 * that what two machines print can be compared byte by byte. It needs no C library.
 *
 * A line of the script is a word and numbers. `unit N` chooses one of two handles for the lines after it, `medium N` one of two media.
 *
 *     slots N                      the medium gets so many slots, and is formatted
 *     kind N                       how a unit is opened from now on: 0 over a copy, 1 by sectors
 *     open COLD, flush, close      as etcs_unit.h says; open and flush carry out all requests, and release
 *     cut REQUESTS BYTES           prepares, and carries out so many requests and so many bytes of the next one; then power is lost
 *     dies COLD REQUESTS BYTES     the same of a power-up
 *     stops COLD SECTORS           closes, and begins a power-up to which so many sectors are handed in; then power is lost
 *     telegram HEX, odometer CM SPEED, clock MS, action N, identity HEX, number N, train LENGTH MAXIMUM DECELERATION REACTION CATEGORY
 *     prepare, request ROOM, done, fail, release ROOM, state, version ROOM, build ROOM, format SLOTS INDEX ROOM
 *     begin SECTORS COLD, begins COLD  begins a power-up; begins has the medium's sectors
 *     provide SECTOR SIZE FROM     hands in bytes of the medium from there on
 *     goes MOST                    hands in what is to be read, at most so many sectors
 *     image                        a digest of the medium
 *     whole, size BYTES            reads all of the medium, or so many bytes of it, from now on
 *     flip OFFSET BITS             alters a byte of the medium
 *     facts, slot NEWEST SLOT, start SLOTS SLOT, block NUMBER, record NUMBER INDEX, why NUMBER EVENT
 *     journal, next, replay, cursor BLOCK LAST INDEX
 *     cause                        why of the event that `next` read last
 *     explain                      why the newest released output is what it is
 *     decode HEX, unused MODE DIRECTION INDEX HEX  the calls on telegrams
 *     null                         each call once with each of its pointers null
 *
 * Each line is answered by its number, the status, and a digest of what was written (FNV-1a); released outputs each have a line. */
#include "etcs_guard.h"
#include "etcs_image.h"
#include "lines.h"

static void add_number(uint64_t number, size_t size);
#include "members.h" /* for each struct what adds its members (scripts.py members) */

#define SECTORS (1 + 6 * 64)

static uint8_t media[2][SECTORS * ETCS_UNIT_SECTOR];
static size_t lengths[2];
static etcs_unit units[2];
/* Whether a unit is opened by etcs_unit_open, or the driver answers its reads. */
static unsigned by_sectors;
static etcs_journal journal;
static uint64_t reads_at_most;
static unsigned on, which, line_number;

/* ---- answers */

static uint64_t digest;

static void add(const void *from, size_t length) {
    const uint8_t *const bytes = (const uint8_t *)from;
    for (size_t i = 0; i < length; i++)
        digest = (digest ^ bytes[i]) * UINT64_C(0x100000001B3);
}

/* A number, the lowest byte first, whatever the machine's order is. */
static void add_number(uint64_t number, size_t size) {
    for (; size > 0; size--, number >>= 8) {
        const uint8_t byte = (uint8_t)(number & 255u);
        add(&byte, 1);
    }
}

static void answer(uint32_t status) {
    put_number(line_number, 10);
    put(" ");
    put_number(status, 10);
    put(" ");
    put_number(digest, 16);
    put("\n");
}

static void put_outputs(const etcs_unit_output *outputs, uint32_t count) {
    for (uint32_t i = 0; i < count; i++) {
        put("event ");
        put_number(outputs[i].event, 10);
        put(" mode ");
        put_number(outputs[i].mode, 10);
        put(" level ");
        put_number(outputs[i].level, 10);
        put(" brake ");
        put_number(outputs[i].brake, 10);
        put(" limit ");
        put_number(outputs[i].limit_m_per_h, 10);
        put(" ind ");
        put_number(outputs[i].indications, 10);
        put("\n");
    }
}

/* ---- the medium */

static etcs_unit *unit(void) {
    return &units[which];
}

static void carries_out(const etcs_unit_request_info *request, const uint8_t *bytes, size_t length) {
    if (request->kind == ETCS_REQUEST_WRITE)
        for (size_t i = 0; i < length && request->sector * ETCS_UNIT_SECTOR + i < sizeof media[0]; i++)
            media[on][request->sector * ETCS_UNIT_SECTOR + i] = bytes[i];
}

/* ---- what is to be read of the medium */

/* A buffer of so many bytes, with what the medium has from a place on. */
static const uint8_t *bytes_from(uint64_t from, size_t size) {
    static uint8_t some[2 * ETCS_UNIT_SECTOR];
    for (size_t i = 0; i < size && i < sizeof some; i++)
        some[i] = media[on][(from % sizeof media[0] + i) % sizeof media[0]];
    return some;
}

static size_t limited(uint64_t wanted) {
    return wanted < 2 * ETCS_UNIT_SECTOR ? (size_t)wanted : 2 * ETCS_UNIT_SECTOR;
}

/* Goes on with the digest of a request, and of the bytes that it writes. */
static void add_request(const etcs_unit_request_info *request, const uint8_t *bytes) {
    add_etcs_unit_request_info(request);
    if (request->kind == ETCS_REQUEST_WRITE)
        add(bytes, (size_t)request->sectors * ETCS_UNIT_SECTOR);
}

/* Hands in the sector that is to be read. */
static uint32_t hands_in(const etcs_unit_request_info *request) {
    return etcs_unit_provide(unit(), request->sector, bytes_from(request->sector * ETCS_UNIT_SECTOR, ETCS_UNIT_SECTOR), ETCS_UNIT_SECTOR);
}

/* Hands in what is to be read, at most so many sectors; FAILED where there are more. */
static uint32_t reads(uint64_t most) {
    static uint8_t bytes[ETCS_UNIT_REQUEST_BYTES];
    etcs_unit_request_info request;
    uint32_t status;
    while ((status = etcs_unit_request(unit(), &request, bytes, sizeof bytes)) == ETCS_UNIT_OK && request.kind == ETCS_REQUEST_READ) {
        add_request(&request, bytes);
        if (most-- == 0)
            return ETCS_UNIT_FAILED;
        status = hands_in(&request);
        if (status != ETCS_UNIT_OK)
            return status;
    }
    return status == ETCS_UNIT_NO_SUCH_REQUEST ? (uint32_t)ETCS_UNIT_OK : status;
}

static uint32_t open_by_sectors(uint32_t cold, uint64_t most) {
    const uint32_t status = etcs_unit_begin(unit(), lengths[on] / ETCS_UNIT_SECTOR, cold);
    return status == ETCS_UNIT_OK ? reads(most) : status;
}

static uint32_t opens(uint32_t cold) {
    return by_sectors != 0 ? open_by_sectors(cold, UINT64_MAX) : etcs_unit_open(unit(), media[on], lengths[on], cold);
}

/* Carries out all requests, or so many and then some bytes of the next one; reads don't count. */
static uint32_t carry_out(uint64_t most, uint64_t rest) {
    static uint8_t bytes[ETCS_UNIT_REQUEST_BYTES];
    etcs_unit_request_info request;
    uint32_t status;
    while ((status = etcs_unit_request(unit(), &request, bytes, sizeof bytes)) == ETCS_UNIT_OK) {
        const size_t length = (size_t)request.sectors * ETCS_UNIT_SECTOR;
        add_request(&request, bytes);
        if (request.kind != ETCS_REQUEST_READ && most-- == 0) {
            carries_out(&request, bytes, rest < length ? (size_t)rest : length);
            return ETCS_UNIT_FAILED;
        }
        carries_out(&request, bytes, length);
        status = request.kind == ETCS_REQUEST_READ ? hands_in(&request) : etcs_unit_done(unit());
        if (status != ETCS_UNIT_OK)
            return status;
    }
    return status == ETCS_UNIT_NO_SUCH_REQUEST ? (uint32_t)ETCS_UNIT_OK : status;
}

static uint32_t release(uint64_t room) {
    etcs_unit_output outputs[ETCS_UNIT_OUTPUTS];
    uint32_t count = 0;
    const uint32_t status = etcs_unit_release(unit(), outputs, room < ETCS_UNIT_OUTPUTS ? (size_t)room : ETCS_UNIT_OUTPUTS, &count);
    if (status == ETCS_UNIT_OK)
        put_outputs(outputs, count);
    return status;
}

static uint32_t format(uint32_t slots) {
    static uint8_t bytes[ETCS_UNIT_SECTOR];
    etcs_unit_request_info request;
    uint32_t index = 0, status;
    lengths[on] = (1 + 6 * (size_t)slots) * ETCS_UNIT_SECTOR;
    if (lengths[on] > sizeof media[0])
        lengths[on] = sizeof media[0];
    for (size_t i = 0; i < sizeof media[0]; i++)
        media[on][i] = 0;
    while ((status = etcs_unit_format_request(slots, index, &request, bytes, sizeof bytes)) == ETCS_UNIT_OK && index < SECTORS) {
        carries_out(&request, bytes, (size_t)request.sectors * ETCS_UNIT_SECTOR);
        index++;
    }
    return status;
}

static size_t size(void) {
    return reads_at_most < lengths[on] ? (size_t)reads_at_most : lengths[on];
}

/* ---- each word */

static int about_units(uint32_t *status) {
    static uint8_t bytes[ETCS_UNIT_REQUEST_BYTES];
    etcs_unit_request_info request;
    etcs_unit_state_info state;
    etcs_unit_why_info why;
    etcs_unit_driver_info driver;
    uint32_t room;
    if (word("open")) {
        *status = opens((uint32_t)number());
        if (*status == ETCS_UNIT_OK)
            *status = carry_out(UINT64_MAX, 0);
        if (*status == ETCS_UNIT_OK)
            *status = release(ETCS_UNIT_OUTPUTS);
    } else if (word("flush")) {
        *status = etcs_unit_prepare(unit());
        if (*status == ETCS_UNIT_OK)
            *status = carry_out(UINT64_MAX, 0);
        if (*status == ETCS_UNIT_OK)
            *status = release(ETCS_UNIT_OUTPUTS);
    } else if (word("cut")) {
        const uint64_t most = number();
        *status = etcs_unit_prepare(unit());
        if (*status == ETCS_UNIT_OK)
            *status = carry_out(most, number());
        (void)etcs_unit_close(unit());
    } else if (word("dies")) {
        *status = opens((uint32_t)number());
        const uint64_t most = number();
        if (*status == ETCS_UNIT_OK)
            *status = carry_out(most, number());
        (void)etcs_unit_close(unit());
    } else if (word("close")) {
        *status = etcs_unit_close(unit());
    } else if (word("prepare")) {
        *status = etcs_unit_prepare(unit());
    } else if (word("request")) {
        room = (uint32_t)number();
        *status = etcs_unit_request(unit(), &request, bytes, room < sizeof bytes ? room : sizeof bytes);
        if (*status == ETCS_UNIT_OK)
            add_request(&request, bytes);
    } else if (word("done")) {
        *status = etcs_unit_done(unit());
    } else if (word("fail")) {
        *status = etcs_unit_fail(unit());
    } else if (word("release")) {
        *status = release(number());
    } else if (word("state")) {
        *status = etcs_unit_state(unit(), &state);
        if (*status == ETCS_UNIT_OK)
            add_etcs_unit_state_info(&state);
    } else if (word("explain")) {
        *status = etcs_unit_why(unit(), &why);
        if (*status == ETCS_UNIT_OK)
            add_etcs_unit_why_info(&why);
    } else if (word("keys")) {
        *status = etcs_unit_driver(unit(), &driver);
        if (*status == ETCS_UNIT_OK)
            add_etcs_unit_driver_info(&driver);
    } else {
        return 0;
    }
    return 1;
}

static int about_sectors(uint32_t *status) {
    uint64_t sector = 0;
    size_t size;
    if (word("kind")) {
        by_sectors = (unsigned)number() % 2;
        *status = 0;
    } else if (word("stops")) {
        const uint32_t cold = (uint32_t)number();
        (void)etcs_unit_close(unit());
        *status = open_by_sectors(cold, number());
        (void)etcs_unit_close(unit());
    } else if (word("begin")) {
        sector = number();
        *status = etcs_unit_begin(unit(), sector, (uint32_t)number());
    } else if (word("begins")) {
        *status = etcs_unit_begin(unit(), lengths[on] / ETCS_UNIT_SECTOR, (uint32_t)number());
    } else if (word("goes")) {
        *status = reads(number());
    } else if (word("provide")) {
        sector = number();
        size = limited(number());
        *status = etcs_unit_provide(unit(), sector, bytes_from(number(), size), size);
    } else {
        return 0;
    }
    return 1;
}

static int about_inputs(uint32_t *status) {
    input in;
    if (!read_input(&in))
        return 0;
    *status = hand_in(unit(), &in);
    return 1;
}

static int about_media(uint32_t *status) {
    static uint8_t bytes[ETCS_UNIT_SECTOR];
    etcs_unit_request_info request;
    uint32_t first, second, length = 0;
    *status = 0;
    if (word("slots")) {
        *status = format((uint32_t)number());
        add(media[on], lengths[on]);
    } else if (word("image")) {
        add(media[on], lengths[on]);
    } else if (word("whole")) {
        reads_at_most = UINT64_MAX;
    } else if (word("size")) {
        reads_at_most = number();
    } else if (word("flip")) {
        const uint64_t offset = number();
        media[on][offset % sizeof media[0]] ^= (uint8_t)number();
    } else if (word("unit")) {
        which = (unsigned)number() % 2;
    } else if (word("medium")) {
        on = (unsigned)number() % 2;
    } else if (word("format")) {
        first = (uint32_t)number();
        second = (uint32_t)number();
        const uint64_t room = number();
        *status = etcs_unit_format_request(first, second, &request, bytes, room < sizeof bytes ? (size_t)room : sizeof bytes);
        if (*status == ETCS_UNIT_OK) {
            add_etcs_unit_request_info(&request);
            add(bytes, (size_t)request.sectors * ETCS_UNIT_SECTOR);
        }
    } else if (word("version")) {
        const uint64_t room = number();
        *status = etcs_version(bytes, room < sizeof bytes ? (size_t)room : sizeof bytes, &length);
        if (*status == ETCS_UNIT_OK)
            add(bytes, length);
    } else if (word("build")) {
        const uint64_t room = number();
        *status = etcs_build_info(bytes, room < sizeof bytes ? (size_t)room : sizeof bytes, &length);
        if (*status == ETCS_UNIT_OK)
            add(bytes, length);
    } else {
        return 0;
    }
    return 1;
}

static int about_telegrams(uint32_t *status) {
    static uint8_t bytes[256];
    etcs_packet_unused packet;
    if (word("decode")) {
        const size_t count = bytes_of_line(bytes, sizeof bytes);
        const uint32_t packets = etcs_packet_count(bytes, count);
        *status = etcs_decode(bytes, count);
        add_number(packets, sizeof packets);
    } else if (word("unused")) {
        const uint32_t mode = (uint32_t)number(), direction = (uint32_t)number(), index = (uint32_t)number();
        *status = etcs_telegram_unused(bytes, bytes_of_line(bytes, sizeof bytes), mode, direction, index, &packet);
        if (*status == ETCS_UNIT_OK)
            add_etcs_packet_unused(&packet);
    } else {
        return 0;
    }
    return 1;
}

static int about_images(uint32_t *status) {
    static etcs_replay replay;
    static etcs_block block;
    static uint64_t last_block, last_event;
    etcs_image facts;
    etcs_slot slot;
    etcs_slot_start start;
    etcs_record record;
    etcs_why why;
    if (word("facts")) {
        *status = etcs_image_facts(media[on], size(), &facts);
        if (*status == ETCS_UNIT_OK)
            add_etcs_image(&facts);
    } else if (word("slot")) {
        const uint64_t newest = number();
        *status = etcs_image_slot(media[on], size(), newest, number(), &slot);
        if (*status == ETCS_UNIT_OK)
            add_etcs_slot(&slot);
    } else if (word("start")) {
        /* of the bytes of the slot, as far as they are read */
        const uint64_t slots = number(), place = number(), from = place < 1048576 ? ETCS_UNIT_SECTOR * (1 + 6 * place) : UINT64_MAX;
        const uint64_t rest = from < size() ? size() - from : 0;
        *status = etcs_image_slot_start(media[on] + (rest > 0 ? from : 0), (size_t)rest, slots, place, &start);
        if (*status == ETCS_UNIT_OK)
            add_etcs_slot_start(&start);
    } else if (word("block")) {
        *status = etcs_image_block(media[on], size(), number(), &block);
        if (*status == ETCS_UNIT_OK)
            add_etcs_block(&block);
    } else if (word("record")) {
        const uint64_t of = number();
        *status = etcs_image_record(media[on], size(), of, (uint32_t)number(), &record);
        if (*status == ETCS_UNIT_OK)
            add_etcs_record(&record);
    } else if (word("why")) {
        const uint64_t of = number();
        *status = etcs_image_why(media[on], size(), of, number(), &why);
        if (*status == ETCS_UNIT_OK)
            add_etcs_why(&why);
    } else if (word("journal")) {
        *status = etcs_journal_open(media[on], size(), &journal);
        if (*status == ETCS_UNIT_OK)
            add_etcs_journal(&journal);
    } else if (word("next")) {
        *status = etcs_journal_next(media[on], size(), &journal, &record);
        if (*status == ETCS_UNIT_OK) {
            add_etcs_record(&record);
            last_block = record.block;
            last_event = record.event;
        }
    } else if (word("cause")) {
        *status = etcs_image_why(media[on], size(), last_block, last_event, &why);
        if (*status == ETCS_UNIT_OK)
            add_etcs_why(&why);
    } else if (word("replay")) {
        *status = etcs_image_replay(media[on], size(), &journal, &replay);
        if (*status == ETCS_UNIT_OK)
            add_etcs_replay(&replay);
    } else if (word("cursor")) {
        journal.block = number();
        journal.last = number();
        journal.index = number();
        *status = 0;
    } else {
        return 0;
    }
    return 1;
}

/* Each call, with each of its pointers null: how many answered NULL_POINTER. */
static uint32_t nulls(void) {
    static uint8_t bytes[ETCS_UNIT_SECTOR];
    static etcs_replay replay;
    static etcs_block block;
    etcs_unit none = {0};
    etcs_unit_request_info request;
    etcs_unit_state_info state;
    etcs_unit_output outputs[ETCS_UNIT_OUTPUTS];
    etcs_image facts;
    etcs_slot slot;
    etcs_slot_start start;
    etcs_record record;
    etcs_why why;
    uint32_t length = 0;
    const uint32_t found[] = {
        etcs_version(NULL, 32, &length), etcs_version(bytes, 32, NULL),
        etcs_build_info(NULL, 160, &length), etcs_build_info(bytes, 160, NULL), etcs_build_proof(),
        etcs_unit_open(NULL, media[on], lengths[on], 0), etcs_unit_open(&none, NULL, 512, 0),
        etcs_unit_telegram(NULL, bytes, 1), etcs_unit_telegram(&none, NULL, 1),
        etcs_unit_odometer(NULL, 0, 0), etcs_unit_clock(NULL, 0), etcs_unit_action(NULL, 1),
        etcs_unit_identity(NULL, bytes, 1), etcs_unit_identity(&none, NULL, 1),
        etcs_unit_running_number(NULL, 1), etcs_unit_train_data(NULL, &(etcs_train_data){1, 1, 1, 1, 1}), etcs_unit_train_data(&none, NULL),
        etcs_unit_prepare(NULL),
        etcs_unit_request(NULL, &request, bytes, 512), etcs_unit_request(&none, NULL, bytes, 512), etcs_unit_request(&none, &request, NULL, 512),
        etcs_unit_done(NULL), etcs_unit_fail(NULL),
        etcs_unit_release(NULL, outputs, 8, &length), etcs_unit_release(&none, NULL, 8, &length), etcs_unit_release(&none, outputs, 8, NULL),
        etcs_unit_state(NULL, &state), etcs_unit_state(&none, NULL), etcs_unit_close(NULL),
        etcs_unit_begin(NULL, 13, 0), etcs_unit_provide(NULL, 0, bytes, 512), etcs_unit_provide(&none, 0, NULL, 512),
        etcs_unit_format_request(2, 0, NULL, bytes, 512), etcs_unit_format_request(2, 0, &request, NULL, 512),
        etcs_image_facts(NULL, 512, &facts), etcs_image_facts(media[on], 512, NULL),
        etcs_image_slot(NULL, 512, 0, 0, &slot), etcs_image_slot(media[on], 512, 0, 0, NULL),
        etcs_image_slot_start(NULL, 1024, 1, 0, &start), etcs_image_slot_start(media[on], 1024, 1, 0, NULL),
        etcs_image_block(NULL, 512, 1, &block), etcs_image_block(media[on], 512, 1, NULL),
        etcs_image_record(NULL, 512, 1, 0, &record), etcs_image_record(media[on], 512, 1, 0, NULL),
        etcs_journal_open(NULL, 512, &journal), etcs_journal_open(media[on], 512, NULL),
        etcs_journal_next(NULL, 512, &journal, &record), etcs_journal_next(media[on], 512, NULL, &record), etcs_journal_next(media[on], 512, &journal, NULL),
        etcs_image_replay(NULL, 512, &journal, &replay), etcs_image_replay(media[on], 512, NULL, &replay), etcs_image_replay(media[on], 512, &journal, NULL),
        etcs_image_why(NULL, 512, 1, 0, &why), etcs_image_why(media[on], 512, 1, 0, NULL),
    };
    uint32_t count = 0;
    for (size_t i = 0; i < sizeof found / sizeof found[0]; i++)
        count += found[i] == ETCS_UNIT_NULL_POINTER;
    return count;
}

void drive(void) {
    reads_at_most = UINT64_MAX;
    while (read_line()) {
        uint32_t status = 0;
        line_number++;
        digest = UINT64_C(0xCBF29CE484222325);
        if (word("null"))
            status = nulls();
        else if (!about_units(&status) && !about_sectors(&status) && !about_inputs(&status) && !about_media(&status) && !about_images(&status)
                 && !about_telegrams(&status))
            put("no such word\n");
        answer(status);
    }
    put("end\n");
}
