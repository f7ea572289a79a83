/* Reading an image from C: each wrong call is answered as c/include/etcs_image.h says, and writes nothing; a slot of each
 * state is recognised; and the records of one life are compared with hand-written ones. */
#include "etcs_image.h"
#include "medium.h"

enum { SLOTS = 4, SLOT = 6 * ETCS_UNIT_SECTOR };

static etcs_image facts;
static etcs_slot slot;
static etcs_block block;
static etcs_record record;
static etcs_journal journal;
static etcs_replay replay;
static etcs_why why;

/* An image is copied into room of just its size, so that a read after it is seen. */
static uint8_t *copy_of(const medium *on) {
    uint8_t *bytes = (uint8_t *)malloc(on->len);
    memcpy(bytes, on->bytes, on->len);
    return bytes;
}

static void touch(void) {
    memset(&facts, 0xAA, sizeof facts);
    memset(&slot, 0xAA, sizeof slot);
    memset(&block, 0xAA, sizeof block);
    memset(&record, 0xAA, sizeof record);
    memset(&journal, 0xAA, sizeof journal);
    memset(&replay, 0xAA, sizeof replay);
    memset(&why, 0xAA, sizeof why);
}

/* That a call that was refused wrote nothing. */
static void untouched(const char *what) {
    uint8_t other[sizeof(etcs_replay)];
    memset(other, 0xAA, sizeof other);
    is(what, (uint64_t)memcmp(&facts, other, sizeof facts) | (uint64_t)memcmp(&slot, other, sizeof slot)
       | (uint64_t)memcmp(&block, other, sizeof block) | (uint64_t)memcmp(&record, other, sizeof record)
       | (uint64_t)memcmp(&journal, other, sizeof journal) | (uint64_t)memcmp(&replay, other, sizeof replay)
       | (uint64_t)memcmp(&why, other, sizeof why), 0);
}

static void null_pointers(const medium *on) {
    const uint32_t wanted = ETCS_UNIT_NULL_POINTER;
    const uint8_t *image = on->bytes;
    is("facts, no image", etcs_image_facts(NULL, on->len, &facts), wanted);
    is("facts, no output", etcs_image_facts(image, on->len, NULL), wanted);
    is("slot, no image", etcs_image_slot(NULL, on->len, 0, 0, &slot), wanted);
    is("slot, no output", etcs_image_slot(image, on->len, 0, 0, NULL), wanted);
    is("block, no image", etcs_image_block(NULL, on->len, 1, &block), wanted);
    is("block, no output", etcs_image_block(image, on->len, 1, NULL), wanted);
    is("record, no image", etcs_image_record(NULL, on->len, 1, 0, &record), wanted);
    is("record, no output", etcs_image_record(image, on->len, 1, 0, NULL), wanted);
    is("journal, no image", etcs_journal_open(NULL, on->len, &journal), wanted);
    is("journal, no output", etcs_journal_open(image, on->len, NULL), wanted);
    is("next, no image", etcs_journal_next(NULL, on->len, &journal, &record), wanted);
    is("next, no journal", etcs_journal_next(image, on->len, NULL, &record), wanted);
    is("next, no output", etcs_journal_next(image, on->len, &journal, NULL), wanted);
    is("replay, no image", etcs_image_replay(NULL, on->len, &journal, &replay), wanted);
    is("replay, no journal", etcs_image_replay(image, on->len, NULL, &replay), wanted);
    is("replay, no output", etcs_image_replay(image, on->len, &journal, NULL), wanted);
    is("why, no image", etcs_image_why(NULL, on->len, 1, 0, &why), wanted);
    is("why, no output", etcs_image_why(image, on->len, 1, 0, NULL), wanted);
}

/* Each call on bytes that are no journal. */
static void refused(const uint8_t *image, size_t size, uint32_t wanted) {
    touch();
    is("facts", etcs_image_facts(image, size, &facts), wanted);
    is("slot", etcs_image_slot(image, size, 0, 0, &slot), wanted);
    is("block", etcs_image_block(image, size, 1, &block), wanted);
    is("record", etcs_image_record(image, size, 1, 0, &record), wanted);
    is("journal", etcs_journal_open(image, size, &journal), wanted);
    is("why", etcs_image_why(image, size, 1, 0, &why), wanted);
    untouched("a refusal writes nothing");
    journal.block = journal.last = 1;
    journal.index = 0;
    is("next", etcs_journal_next(image, size, &journal, &record), wanted);
    is("next stays", journal.block, 1);
    is("replay", etcs_image_replay(image, size, &journal, &replay), wanted);
    is("replay stays", journal.block, 1);
    memset(&journal, 0xAA, sizeof journal);
    untouched("nor do these");
}

static void other_abi(const medium *on) {
    for (uint32_t abi = ETCS_UNIT_ABI - 1; abi <= ETCS_UNIT_ABI + 1; abi += 2) {
        touch();
        is("facts, another header", etcs_image_facts_(on->bytes, on->len, abi, &facts), ETCS_UNIT_OTHER_ABI);
        is("slot, another header", etcs_image_slot_(on->bytes, on->len, abi, 0, 0, &slot), ETCS_UNIT_OTHER_ABI);
        is("block, another header", etcs_image_block_(on->bytes, on->len, abi, 1, &block), ETCS_UNIT_OTHER_ABI);
        is("record, another header", etcs_image_record_(on->bytes, on->len, abi, 1, 0, &record), ETCS_UNIT_OTHER_ABI);
        is("journal, another header", etcs_journal_open_(on->bytes, on->len, abi, &journal), ETCS_UNIT_OTHER_ABI);
        is("why, another header", etcs_image_why_(on->bytes, on->len, abi, 1, 0, &why), ETCS_UNIT_OTHER_ABI);
        is("replay, another header", etcs_image_replay_(on->bytes, on->len, abi, &journal, &replay), ETCS_UNIT_OTHER_ABI);
        untouched("another header writes nothing");
    }
}

/* Images of wrong sizes, and numbers out of range, on a journal of four slots with the blocks 1 and 2. */
static void limits(const medium *on) {
    uint8_t *image = copy_of(on);
    const uint64_t most = UINT64_C(1) << 40;
    refused(image, 0, ETCS_UNIT_IMAGE_NOT_FORMATTED);
    refused(image, 511, ETCS_UNIT_IMAGE_NOT_FORMATTED);
    touch();
    is("newest above 2^40", etcs_image_slot(image, on->len, most + 1, 0, &slot), ETCS_UNIT_OUT_OF_RANGE);
    is("the greatest newest", etcs_image_slot(image, on->len, UINT64_MAX, 0, &slot), ETCS_UNIT_OUT_OF_RANGE);
    is("slot 4 of 4", etcs_image_slot(image, on->len, 2, 4, &slot), ETCS_UNIT_NO_SUCH_SLOT);
    is("the greatest slot", etcs_image_slot(image, on->len, 2, UINT64_MAX, &slot), ETCS_UNIT_NO_SUCH_SLOT);
    is("block 0", etcs_image_block(image, on->len, 0, &block), ETCS_UNIT_NO_SUCH_BLOCK);
    is("block 3", etcs_image_block(image, on->len, 3, &block), ETCS_UNIT_NO_SUCH_BLOCK);
    is("the greatest block", etcs_image_block(image, on->len, UINT64_MAX, &block), ETCS_UNIT_NO_SUCH_BLOCK);
    is("a record of block 0", etcs_image_record(image, on->len, 0, 0, &record), ETCS_UNIT_NO_SUCH_BLOCK);
    is("record 1 of 1", etcs_image_record(image, on->len, 1, 1, &record), ETCS_UNIT_NO_SUCH_RECORD);
    is("the greatest record", etcs_image_record(image, on->len, 1, UINT32_MAX, &record), ETCS_UNIT_NO_SUCH_RECORD);
    is("why, block 0", etcs_image_why(image, on->len, 0, 0, &why), ETCS_UNIT_NO_SUCH_BLOCK);
    is("why, block 3", etcs_image_why(image, on->len, 3, 6, &why), ETCS_UNIT_NO_SUCH_BLOCK);
    is("why, the greatest block", etcs_image_why(image, on->len, UINT64_MAX, 0, &why), ETCS_UNIT_NO_SUCH_BLOCK);
    is("why, an event before block 2", etcs_image_why(image, on->len, 2, 0, &why), ETCS_UNIT_NO_SUCH_RECORD);
    is("why, an event after block 2", etcs_image_why(image, on->len, 2, 6, &why), ETCS_UNIT_NO_SUCH_RECORD);
    is("why, the greatest event", etcs_image_why(image, on->len, 2, UINT64_MAX, &why), ETCS_UNIT_NO_SUCH_RECORD);
    is("a sector too few", etcs_journal_open(image, on->len - 512, &journal), ETCS_UNIT_IMAGE_DAMAGED);
    untouched("a refusal writes nothing");
    is("slot 3 is cut off", etcs_image_slot(image, on->len - 512, 2, 3, &slot), ETCS_UNIT_NO_SUCH_SLOT);
    is("slot 2 isn't", etcs_image_slot(image, on->len - 512, 2, 2, &slot), ETCS_UNIT_OK);
    is("facts of a cut image", etcs_image_facts(image, on->len - 512, &facts), ETCS_UNIT_OK);
    is("its slots", facts.slots, 4);
    is("those that are whole", facts.whole, 3);
    is("its sectors", facts.sectors, 24);
    is("bytes after the last sector", etcs_journal_open(image, on->len, &journal), ETCS_UNIT_OK);
    is("the first sector alone", etcs_image_facts(image, 512, &facts), ETCS_UNIT_OK);
    is("no slot is whole", facts.whole, 0);
    is("no block is newest", facts.newest, 0);
    image[0] ^= 1;
    refused(image, on->len, ETCS_UNIT_IMAGE_NOT_FORMATTED);
    free(image);
}

/* A journal that no call left. */
static void cursors(const medium *on) {
    const etcs_journal odd[] = {{0, 0, 0}, {1, (UINT64_C(1) << 40) + 1, 0}, {1, UINT64_MAX, 0}, {UINT64_MAX, UINT64_MAX, 0}, {3, 2, 0}, {UINT64_MAX, 2, 7}, {1, 2, 1}, {1, 2, UINT64_MAX},
                                {1, UINT64_C(1) << 40, 0}, {2, SLOTS + 2, 0}};
    const uint32_t wanted[] = {ETCS_UNIT_NOT_OPEN, ETCS_UNIT_OUT_OF_RANGE, ETCS_UNIT_OUT_OF_RANGE, ETCS_UNIT_OUT_OF_RANGE, ETCS_UNIT_END, ETCS_UNIT_END, ETCS_UNIT_NO_SUCH_RECORD, ETCS_UNIT_NO_SUCH_RECORD,
                               ETCS_UNIT_OUT_OF_RANGE, ETCS_UNIT_OUT_OF_RANGE};
    for (unsigned i = 0; i < sizeof wanted / sizeof wanted[0]; i++) {
        touch();
        journal = odd[i];
        is("an odd journal", etcs_journal_next(on->bytes, on->len, &journal, &record), wanted[i]);
        is("it stays", (uint64_t)memcmp(&journal, &odd[i], sizeof journal), 0);
        /* (a replay begins at a block, whatever the index is) */
        if (wanted[i] != ETCS_UNIT_NO_SUCH_RECORD) {
            is("an odd journal, replayed", etcs_image_replay(on->bytes, on->len, &journal, &replay), wanted[i]);
            is("it stays", (uint64_t)memcmp(&journal, &odd[i], sizeof journal), 0);
        }
        memset(&journal, 0xAA, sizeof journal);
        untouched("and nothing is written");
    }
    const etcs_journal most = {2, SLOTS + 1, 0};
    journal = most;
    is("as many blocks as slots", etcs_journal_next(on->bytes, on->len, &journal, &record), ETCS_UNIT_OK);
    journal = most;
    is("as many blocks as slots, replayed", etcs_image_replay(on->bytes, on->len, &journal, &replay), ETCS_UNIT_OK);
}

/* A life of a power-up and five events, by hand: block 1 has the power-up, block 2 the others. */
static medium lived(void) {
    static const etcs_train_data train = {20000, 160000, 70, 1000, 15};
    etcs_unit_output outputs[ETCS_UNIT_OUTPUTS];
    etcs_unit unit = {0};
    uint32_t count = 0;
    medium on = formatted(SLOTS);
    is("power-up", powered_up(&on, &unit, ETCS_COLD_MOVED), ETCS_UNIT_OK);
    is("clock", etcs_unit_clock(&unit, 258), ETCS_UNIT_OK);
    is("identity", etcs_unit_identity(&unit, (const uint8_t *)"IC 704", 6), ETCS_UNIT_OK);
    is("running number", etcs_unit_running_number(&unit, 70400), ETCS_UNIT_OK);
    is("train data", etcs_unit_train_data(&unit, &train), ETCS_UNIT_OK);
    /* (the driver enters nothing while the train moves) */
    is("odometer", etcs_unit_odometer(&unit, -30, 300), ETCS_UNIT_OK);
    is("flush", flushed(&on, &unit, outputs, &count), ETCS_UNIT_OK);
    is("five outputs", count, 5);
    is("close", etcs_unit_close(&unit), ETCS_UNIT_OK);
    return on;
}

static void records(const medium *on) {
    static const uint8_t kinds[] = {ETCS_POWER_UP, ETCS_CLOCK, ETCS_DRIVER, ETCS_DRIVER, ETCS_DRIVER, ETCS_ODOMETER};
    static const uint8_t lengths[] = {1, 8, 7, 5, 14, 8};
    uint8_t *image = copy_of(on);
    is("facts", etcs_image_facts(image, on->len, &facts), ETCS_UNIT_OK);
    is("sectors", facts.sectors, 25);
    is("slots", facts.slots, 4);
    is("whole slots", facts.whole, 4);
    is("newest", facts.newest, 2);
    is("journal", etcs_journal_open(image, on->len, &journal), ETCS_UNIT_OK);
    for (unsigned i = 0; i < 6; i++) {
        is("next", etcs_journal_next(image, on->len, &journal, &record), ETCS_UNIT_OK);
        is("its event", record.event, i);
        is("its block", record.block, i == 0 ? 1 : 2);
        is("its kind", record.kind, kinds[i]);
        is("its payload", record.payload_len, lengths[i]);
        is("its mode", record.mode, ETCS_STAND_BY);
        is("its level", record.level, ETCS_LEVEL_INVALID);
        is("its brake", record.brake, ETCS_BRAKE_EMERGENCY);
        is("its indications", record.indications & ETCS_SHOWS_NOT_REVALIDATED, ETCS_SHOWS_NOT_REVALIDATED);
        is("its moment", record.moment_ms, i == 0 ? 0 : 258);
        is("its life", record.life, 1);
        is("its format", record.format, 3);
        is("a place", record.has_place, 1);
        is("its front", (uint64_t)record.front_cm, i < 5 ? 0 : (uint64_t)-30);
        /* 500 cm, and the twentieth part of 30 cm, rounded up */
        is("its uncertainty", record.uncertainty_cm, i < 5 ? 500 : 502);
        is("its limit", record.limit_m_per_h, 0);
        for (unsigned j = record.payload_len; j < ETCS_PAYLOAD_BYTES; j++)
            if (record.payload[j] != 0)
                is("zeros after the payload", record.payload[j], 0);
        if (kinds[i] == ETCS_POWER_UP)
            is("the word: moved", record.payload[0], 1);
        if (kinds[i] == ETCS_CLOCK)
            is("258 ms", (uint64_t)memcmp(record.payload, "\0\0\0\0\0\0\1\2", 8), 0);
        if (kinds[i] == ETCS_ODOMETER)
            is("-30 cm and 300 m/h", (uint64_t)memcmp(record.payload, "\xFF\xFF\xFF\xE2\0\0\x01\x2C", 8), 0);
        if (i == 2)
            is("IC 704", (uint64_t)memcmp(record.payload, "\1IC 704", 7), 0);
    }
    is("the end", etcs_journal_next(image, on->len, &journal, &record), ETCS_UNIT_END);
    is("the end, again", etcs_journal_next(image, on->len, &journal, &record), ETCS_UNIT_END);
    is("a copy of the first record", etcs_image_record(image, on->len, 1, 0, &record), ETCS_UNIT_OK);
    is("its event", record.event, 0);
    is("the last record", etcs_image_record(image, on->len, 2, 4, &record), ETCS_UNIT_OK);
    is("its event", record.event, 5);
    free(image);
}

static void heads(const medium *on) {
    uint8_t *image = copy_of(on);
    is("block 1", etcs_image_block(image, on->len, 1, &block), ETCS_UNIT_OK);
    is("its records", block.records, 1);
    is("no identity", block.kept.identity_len, 0);
    is("no running number", block.kept.has_running_number, 0);
    is("no train", block.kept.has_train, 0);
    is("block 2", etcs_image_block(image, on->len, 2, &block), ETCS_UNIT_OK);
    is("its number", block.number, 2);
    is("its first event", block.first_event, 1);
    is("its events", block.events, 6);
    is("its lives", block.lives, 1);
    is("its format", block.format, 3);
    is("its records", block.records, 5);
    is("reserved", block.reserved | block.kept.reserved, 0);
    is("an identity", block.kept.identity_len, 6);
    is("IC 704", (uint64_t)memcmp(block.kept.identity, "IC 704\0\0\0\0\0\0\0\0\0", 16), 0);
    is("a running number", block.kept.has_running_number, 1);
    is("70400", block.kept.running_number, 70400);
    is("a train", block.kept.has_train, 1);
    is("its length", block.kept.train.length_cm, 20000);
    is("its greatest speed", block.kept.train.maximum_m_per_h, 160000);
    is("its deceleration", block.kept.train.deceleration_cm_per_s2, 70);
    is("its reaction", block.kept.train.reaction_ms, 1000);
    is("its category", block.kept.train.category, 15);
    is("no level", block.kept.level_status, ETCS_DATUM_UNKNOWN);
    is("no position", block.kept.position_status, ETCS_DATUM_UNKNOWN);
    is("no trip", block.kept.trip_outstanding, 0);
    /* the defaults of docs/explain/conformance.md */
    is("shunting", block.kept.national.shunting_m_per_h, 30000);
    is("staff responsible", block.kept.national.staff_responsible_m_per_h, 40000);
    is("on sight", block.kept.national.on_sight_m_per_h, 30000);
    is("unfitted", block.kept.national.unfitted_m_per_h, 100000);
    is("release", block.kept.national.release_m_per_h, 40000);
    is("roll", block.kept.national.roll_cm, 200);
    is("override allowed", block.kept.national.override_allowed_m_per_h, 0);
    is("override", block.kept.national.override_m_per_h, 30000);
    is("override distance", block.kept.national.override_distance_cm, 20000);
    is("override time", block.kept.national.override_time_ms, 60000);
    is("staff responsible distance", block.kept.national.staff_responsible_distance_cm, ETCS_ENDLESS);
    is("for no country", block.kept.national.count, 0);
    free(image);
}

/* The life of `lived`, run again: in event 5 the train moves backward in Stand By, and the driver never revalidated. */
static void again(const medium *on) {
    uint8_t *image = copy_of(on);
    is("journal", etcs_journal_open(image, on->len, &journal), ETCS_UNIT_OK);
    is("a life", etcs_image_replay(image, on->len, &journal, &replay), ETCS_UNIT_OK);
    is("from event 0", replay.first_event, 0);
    is("to event 5", replay.last_event, 5);
    is("the first", replay.life, 1);
    is("agrees", replay.verdict, ETCS_VERDICT_AGREES);
    is("no field differs", replay.field | replay.reserved | replay.block | replay.event, 0);
    is("after block 2", journal.block, 3);
    is("at its first record", journal.index, 0);
    is("no life more", etcs_image_replay(image, on->len, &journal, &replay), ETCS_UNIT_END);
    journal.block = 2;
    is("from block 2 on", etcs_image_replay(image, on->len, &journal, &replay), ETCS_UNIT_OK);
    is("its life is run from its power-up on", replay.verdict, ETCS_VERDICT_AGREES);
    is("from event 1", replay.first_event, 1);
    is("to its end", journal.block, 3);
    journal.block = 2;
    journal.index = 3;
    is("from a record on", etcs_image_replay(image, on->len, &journal, &replay), ETCS_UNIT_OK);
    is("from event 4", replay.first_event, 4);
    is("to event 5", replay.last_event, 5);
    journal.block = 1;
    journal.index = 7;
    is("after all records", etcs_image_replay(image, on->len, &journal, &replay), ETCS_UNIT_OK);
    is("from block 2", replay.first_event, 1);
    journal.block = 2;
    journal.index = 5;
    is("its head agrees", etcs_image_replay(image, on->len, &journal, &replay), ETCS_UNIT_END);
    is("it stays", journal.index, 5);
    journal.block = 1;
    journal.index = 0;
    journal.last = 1;
    is("up to block 1", etcs_image_replay(image, on->len, &journal, &replay), ETCS_UNIT_OK);
    is("it ends there", replay.last_event, 0);
    is("why", etcs_image_why(image, on->len, 2, 5, &why), ETCS_UNIT_OK);
    is("its event", why.event, 5);
    is("the emergency brake", why.brake, ETCS_BRAKE_EMERGENCY);
    is("its limit", why.limit_m_per_h, 0);
    is("its speed", why.speed_m_per_h, 300);
    is("backward", why.backward_cm, 30);
    is("allowed", why.allowed_backward_cm, 200);
    for (unsigned i = 0; i < ETCS_BRAKE_CAUSES; i++) {
        is("a cause", why.holds[i], i == ETCS_CAUSE_NOT_REVALIDATED || i == ETCS_CAUSE_MUST_STAND);
        is("since when", why.since[i], i == ETCS_CAUSE_MUST_STAND ? 5 : 0);
    }
    is("no trip", why.trip_cause | why.trip_event, 0);
    is("no train may run", why.limit_cause, ETCS_LIMIT_NO_SPEED);
    is("at 0 m/h", why.limit_cause_m_per_h, 0);
    is("at no place", why.has_place | (uint64_t)why.limit_cause_cm | why.has_restriction | why.restriction, 0);
    is("event 0", etcs_image_why(image, on->len, 1, 0, &why), ETCS_UNIT_OK);
    is("not revalidated", why.holds[ETCS_CAUSE_NOT_REVALIDATED], 1);
    is("standing", why.holds[ETCS_CAUSE_MUST_STAND], 0);
    /* the mode of the first record of block 2: Full Supervision */
    image[512 + 2 * SLOT + 1024 + 1] = 0;
    is("journal", etcs_journal_open(image, on->len, &journal), ETCS_UNIT_OK);
    is("before it", etcs_image_replay(image, on->len, &journal, &replay), ETCS_UNIT_OK);
    is("the power-up agrees", replay.verdict, ETCS_VERDICT_AGREES);
    is("it alone", replay.last_event, 0);
    is("a line", etcs_image_replay(image, on->len, &journal, &replay), ETCS_UNIT_OK);
    is("a record differs", replay.verdict, ETCS_VERDICT_RECORD_DIFFERS);
    is("in its mode", replay.field, ETCS_RECORD_MODE);
    is("of block 2", replay.block, 2);
    is("of event 1", replay.event, 1);
    is("the journal's mode", replay.journal.mode, ETCS_FULL_SUPERVISION);
    is("the kernel answers", replay.kernel.mode, ETCS_STAND_BY);
    is("it alone", replay.last_event, 1);
    is("a line", etcs_image_replay(image, on->len, &journal, &replay), ETCS_UNIT_OK);
    is("after it", replay.verdict, ETCS_VERDICT_AFTER_DIFFERENCE);
    is("to the last event", replay.last_event, 5);
    is("no line more", etcs_image_replay(image, on->len, &journal, &replay), ETCS_UNIT_END);
    image[512 + 2 * SLOT + 1024 + 1] = ETCS_STAND_BY;
    /* the length of the train in the head of block 2 */
    image[512 + 2 * SLOT + 512 + 60 + 3] ^= 1;
    is("journal", etcs_journal_open(image, on->len, &journal), ETCS_UNIT_OK);
    is("before it", etcs_image_replay(image, on->len, &journal, &replay), ETCS_UNIT_OK);
    is("all events agree", replay.verdict, ETCS_VERDICT_AGREES);
    is("to event 5", replay.last_event, 5);
    is("at the head", journal.index, 5);
    is("a line", etcs_image_replay(image, on->len, &journal, &replay), ETCS_UNIT_OK);
    is("a head differs", replay.verdict, ETCS_VERDICT_HEAD_DIFFERS);
    is("of no event", replay.first_event | replay.last_event | replay.event, 0);
    is("in the train data", replay.field, ETCS_KEPT_TRAIN);
    is("of block 2", replay.block, 2);
    is("the journal's train data", replay.journal_kept.train.length_cm, 20001);
    is("the kernel keeps", replay.kernel_kept.train.length_cm, 20000);
    /* block 1 can't be read: what is after isn't run */
    image[512 + SLOT + 1024 + 1] = 5;
    is("journal", etcs_journal_open(image, on->len, &journal), ETCS_UNIT_OK);
    is("a block that can't be read", etcs_image_replay(image, on->len, &journal, &replay), ETCS_UNIT_IMAGE_DAMAGED);
    is("after it", journal.block, 2);
    is("a life", etcs_image_replay(image, on->len, &journal, &replay), ETCS_UNIT_OK);
    is("after a gap", replay.verdict, ETCS_VERDICT_AFTER_GAP);
    is("from event 1", replay.first_event, 1);
    is("why", etcs_image_why(image, on->len, 2, 5, &why), ETCS_UNIT_NOT_REPLAYED);
    /* block 1 was overwritten */
    memset(image + 512 + SLOT, 0, SLOT);
    is("journal", etcs_journal_open(image, on->len, &journal), ETCS_UNIT_OK);
    is("a life", etcs_image_replay(image, on->len, &journal, &replay), ETCS_UNIT_OK);
    is("before the oldest block", replay.verdict, ETCS_VERDICT_BEFORE_OLDEST);
    is("why", etcs_image_why(image, on->len, 2, 5, &why), ETCS_UNIT_NOT_REPLAYED);
    free(image);
}

/* Packet 3 of group 9 of country 5, in force at once for the countries 5 and 7, in metres: Shunting 20 km/h and so on by
 * 5 km/h to the release speed of 40, 3 m, 45 and 50 km/h, 100 m, a time without end, 500 m. */
static void positions(void) {
    static const uint8_t values[] = {0x90, 0x00, 0x7F, 0x80, 0xA0, 0x04, 0xC0, 0xE0, 0x53, 0xBF, 0xFF, 0xC4, 0x02, 0x80, 0xE1,
                                     0x02, 0x86, 0x0E, 0x20, 0x00, 0x18, 0x91, 0x40, 0x19, 0x3F, 0xC0, 0xFA, 0x7F, 0x80};
    etcs_unit_output outputs[ETCS_UNIT_OUTPUTS];
    etcs_unit unit = {0};
    uint32_t count;
    medium on = formatted(SLOTS);
    is("power-up", powered_up(&on, &unit, 0), ETCS_UNIT_OK);
    is("a group", etcs_unit_telegram(&unit, values, sizeof values), ETCS_UNIT_OK);
    is("level 1", etcs_unit_action(&unit, ETCS_CHOOSE_LEVEL_1), ETCS_UNIT_OK);
    is("forward", etcs_unit_odometer(&unit, 400, 300), ETCS_UNIT_OK);
    is("flush", flushed(&on, &unit, outputs, &count), ETCS_UNIT_OK);
    is("close", etcs_unit_close(&unit), ETCS_UNIT_OK);
    is("block 2", etcs_image_block(on.bytes, on.len, 2, &block), ETCS_UNIT_OK);
    is("a level", block.kept.level_status, ETCS_DATUM_VALID);
    is("level 1", block.kept.level, ETCS_LEVEL_1);
    is("a position", block.kept.position_status, ETCS_DATUM_VALID);
    is("beyond the group", (uint64_t)block.kept.distance_cm, 400);
    is("country 5", block.kept.country, 5);
    is("group 9", block.kept.group, 9);
    is("shunting", block.kept.national.shunting_m_per_h, 20000);
    is("staff responsible", block.kept.national.staff_responsible_m_per_h, 25000);
    is("on sight", block.kept.national.on_sight_m_per_h, 30000);
    is("unfitted", block.kept.national.unfitted_m_per_h, 35000);
    is("release", block.kept.national.release_m_per_h, 40000);
    is("roll", block.kept.national.roll_cm, 300);
    is("override allowed", block.kept.national.override_allowed_m_per_h, 45000);
    is("override", block.kept.national.override_m_per_h, 50000);
    is("override distance", block.kept.national.override_distance_cm, 10000);
    is("override time", block.kept.national.override_time_ms, ETCS_ENDLESS);
    is("staff responsible distance", block.kept.national.staff_responsible_distance_cm, 50000);
    is("two countries, and the group's", block.kept.national.count, 3);
    is("the first", block.kept.national.countries[0], 5);
    is("the second", block.kept.national.countries[1], 7);
    is("the group's", block.kept.national.countries[2], 5);
    free(on.bytes);
}

/* What a slot holds, by its state and number. */
static void holds(const char *what, const uint8_t *image, size_t size, uint64_t at, uint32_t state, uint64_t number, uint32_t sound) {
    is("facts", etcs_image_facts(image, size, &facts), ETCS_UNIT_OK);
    is(what, etcs_image_slot(image, size, facts.newest, at, &slot), ETCS_UNIT_OK);
    is(what, slot.state, state);
    is(what, slot.number, number);
    is(what, slot.is_sound, sound);
}

/* A slot of each state: block 1 is in slot 1, block 2 in slot 2; slots 0 and 3 are empty. */
static void states(const medium *on) {
    uint8_t *image = copy_of(on);
    uint8_t *const first = image + 512 + 1 * SLOT, *const second = image + 512 + 2 * SLOT, *const last = image + 512 + 3 * SLOT;
    holds("empty", image, on->len, 0, ETCS_SLOT_EMPTY, 0, 1);
    is("an empty slot spells no block", slot.has_fault, 1);
    holds("a block", image, on->len, 1, ETCS_SLOT_BLOCK, 1, 1);
    is("all its fields are right", slot.has_fault | slot.fault_record | (uint32_t)slot.fault_at, 0);
    first[100] = 1;
    holds("a gate of another", image, on->len, 1, ETCS_SLOT_BLOCK, 1, 0);
    first[100] = 0;
    /* the mode of the first record, which begins in the head's next sector: no mode has the number 5 */
    first[1024 + 1] = 5;
    holds("unreadable", image, on->len, 1, ETCS_SLOT_UNREADABLE, 1, 0);
    is("a field isn't one", slot.has_fault, 1);
    is("of the first record", slot.fault_record, 1);
    is("its second byte", slot.fault_at, 512 + 1);
    is("its block isn't there", etcs_image_block(image, on->len, 1, &block), ETCS_UNIT_NO_SUCH_BLOCK);
    is("the journal begins there", etcs_journal_open(image, on->len, &journal), ETCS_UNIT_OK);
    is("and reports that it is damaged", etcs_journal_next(image, on->len, &journal, &record), ETCS_UNIT_IMAGE_DAMAGED);
    is("it is after it", journal.block, 2);
    is("and goes on", etcs_journal_next(image, on->len, &journal, &record), ETCS_UNIT_OK);
    is("at event 1", record.event, 1);
    first[1024 + 1] = on->bytes[512 + SLOT + 1024 + 1];
    memcpy(last, second, SLOT);
    holds("misplaced", image, on->len, 3, ETCS_SLOT_MISPLACED, 2, 0);
    memset(last + 512, 0x33, 512);
    holds("foreign", image, on->len, 3, ETCS_SLOT_FOREIGN, 0, 0);
    memset(last, 0, 512);
    holds("remains", image, on->len, 3, ETCS_SLOT_REMAINS, 0, 0);
    memset(second, 0, 512);
    holds("unwritten: 2 is after 1", image, on->len, 2, ETCS_SLOT_UNWRITTEN, 2, 0);
    is("it isn't in the journal", etcs_image_block(image, on->len, 2, &block), ETCS_UNIT_NO_SUCH_BLOCK);
    memcpy(second, on->bytes + 512 + 2 * SLOT, 512);
    memset(first, 0, 512);
    holds("replaced: 1 is before 2", image, on->len, 1, ETCS_SLOT_REPLACED, 1, 0);
    is("the journal", etcs_journal_open(image, on->len, &journal), ETCS_UNIT_OK);
    is("begins after it", journal.block, 2);
    free(image);
}

/* An empty journal. */
static void empty(void) {
    medium on = formatted(2);
    is("facts", etcs_image_facts(on.bytes, on.len, &facts), ETCS_UNIT_OK);
    is("no newest block", facts.newest, 0);
    is("journal", etcs_journal_open(on.bytes, on.len, &journal), ETCS_UNIT_OK);
    is("it ends at once", etcs_journal_next(on.bytes, on.len, &journal, &record), ETCS_UNIT_END);
    free(on.bytes);
}

/* The names of the statuses. */
static void texts(void) {
    is("OK", (uint64_t)strcmp(etcs_status_name(ETCS_UNIT_OK), "OK"), 0);
    is("END", (uint64_t)strcmp(etcs_status_name(ETCS_UNIT_END), "END"), 0);
    is("none", (uint64_t)strcmp(etcs_status_name(5), "unknown"), 0);
    is("none", (uint64_t)strcmp(etcs_status_name(UINT32_MAX), "unknown"), 0);
}

int main(void) {
    medium on = lived();
    texts();
    empty();
    null_pointers(&on);
    other_abi(&on);
    limits(&on);
    cursors(&on);
    records(&on);
    heads(&on);
    again(&on);
    positions();
    states(&on);
    free(on.bytes);
    return report("reading", 466);
}
