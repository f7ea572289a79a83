/* Which block a slot holds (etcs_image_slot_start): gates and heads that are written here byte by byte, after
 * docs/reference/format.md, with what each is to be answered. */
#include "etcs_image.h"
#include "medium.h"

enum { START = 2 * ETCS_UNIT_SECTOR, WHOLE = 6 * ETCS_UNIT_SECTOR };

#define MOST (UINT64_C(1) << 40)

static etcs_slot_start found;

static void write_number(uint8_t *at, uint64_t number) {
    for (int byte = 7; byte >= 0; byte--, number >>= 8)
        at[byte] = (uint8_t)number;
}

/* A gate with a mark and a number, and a head with a mark and a number, in a buffer of just this size. */
static uint8_t *start_of(size_t size, const char *gate, uint64_t gate_number, const char *head, uint64_t head_number) {
    uint8_t *const bytes = (uint8_t *)calloc(1, size);
    memcpy(bytes, gate, 8);
    write_number(bytes + 8, gate_number);
    memcpy(bytes + ETCS_UNIT_SECTOR, head, 8);
    write_number(bytes + ETCS_UNIT_SECTOR + 8, head_number);
    return bytes;
}

/* What is answered of these bytes in a slot of a ring. */
static void holds(const char *what, const uint8_t *bytes, size_t size, uint64_t slots, uint64_t slot, uint64_t number, uint32_t is_closed) {
    memset(&found, 0xAA, sizeof found);
    is(what, etcs_image_slot_start(bytes, size, slots, slot, &found), ETCS_UNIT_OK);
    is(what, found.number, number);
    is(what, found.is_closed, is_closed);
    is(what, found.reserved, 0);
}

static void refused(const char *what, uint32_t answer, uint32_t wanted) {
    uint8_t other[sizeof found];
    memset(other, 0xAA, sizeof other);
    is(what, answer, wanted);
    is("a refusal writes nothing", (uint64_t)memcmp(&found, other, sizeof found), 0);
}

typedef struct {
    const char *what, *gate, *head;
    uint64_t gate_number, head_number;
    uint64_t wanted;
} row;

#define OF(number) (number), (number)
#define CLOSED "\0\0\0\0\0\0\0\0"

/* Outside of a ring: each number belongs to slot 0 of 1. */
static const row rows[] = {
    {"block 7 of format 1", "ETCSGATE", "ETCSHEAD", OF(7), 7},
    {"block 7 of format 2", "ETCSGATE", "ETCSHED2", OF(7), 7},
    {"block 7 of format 3", "ETCSGATE", "ETCSHED3", OF(7), 7},
    {"there is no format 0", "ETCSGATE", "ETCSHED0", OF(7), 0},
    {"format 1 has another mark", "ETCSGATE", "ETCSHED1", OF(7), 0},
    {"there is no format 4", "ETCSGATE", "ETCSHED4", OF(7), 0},
    {"a small letter", "ETCSGATE", "etcshed3", OF(7), 0},
    {"no mark of a head", "ETCSGATE", CLOSED, OF(7), 0},
    {"the mark of a gate over a head", "ETCSGATE", "ETCSGATE", OF(7), 0},
    {"the mark of an image over a head", "ETCSGATE", "ETCSJRU1", OF(7), 0},
    {"block 0", "ETCSGATE", "ETCSHED3", OF(0), 0},
    {"block 1", "ETCSGATE", "ETCSHED3", OF(1), 1},
    {"block 2^40 - 1", "ETCSGATE", "ETCSHED3", OF(MOST - 1), MOST - 1},
    {"block 2^40", "ETCSGATE", "ETCSHED3", OF(MOST), MOST},
    {"block 2^40 of format 1", "ETCSGATE", "ETCSHEAD", OF(MOST), MOST},
    {"block 2^40 + 1", "ETCSGATE", "ETCSHED3", OF(MOST + 1), 0},
    {"block 2^41 + 5", "ETCSGATE", "ETCSHED3", OF((UINT64_C(1) << 41) + 5), 0},
    {"the greatest number", "ETCSGATE", "ETCSHED3", OF(UINT64_MAX), 0},
    {"2^32 more in the gate", "ETCSGATE", "ETCSHED3", (UINT64_C(1) << 32) + 7, 7, 0},
    {"2^32 more in the head", "ETCSGATE", "ETCSHED3", 7, (UINT64_C(1) << 32) + 7, 0},
    {"the gate of the block before", "ETCSGATE", "ETCSHED3", 6, 7, 0},
    {"the head of the block before", "ETCSGATE", "ETCSHED3", 7, 6, 0},
    {"a gate with number 0", "ETCSGATE", "ETCSHED3", 0, 7, 0},
    {"a head with number 0", "ETCSGATE", "ETCSHED3", 7, 0, 0},
    {"another mark of a gate", "ETCSGATF", "ETCSHED3", OF(7), 0},
    {"a number after no mark of a gate", CLOSED, "ETCSHED3", OF(7), 0},
};

static void each_row(void) {
    for (size_t at = 0; at < sizeof rows / sizeof rows[0]; at++) {
        const row *const it = &rows[at];
        uint8_t *const bytes = start_of(START, it->gate, it->gate_number, it->head, it->head_number);
        holds(it->what, bytes, START, 1, 0, it->wanted, 0);
        free(bytes);
    }
}

/* Gates that are closed, or that hold a byte more. */
static void gates(void) {
    uint8_t *const bytes = start_of(START, CLOSED, 0, "ETCSHED3", 7);
    holds("a closed gate", bytes, START, 1, 0, 0, 1);
    bytes[ETCS_UNIT_SECTOR - 1] = 1;
    holds("the last bit of a gate", bytes, START, 1, 0, 0, 0);
    memset(bytes, 0, START);
    holds("all zeros", bytes, START, 1, 0, 0, 1);
    free(bytes);
    uint8_t *const open = start_of(START, "ETCSGATE", 7, "ETCSHED3", 7);
    for (int at = 16; at < ETCS_UNIT_SECTOR; at++) {
        open[at] = 0x80;
        holds("a byte after the gate's number", open, START, 1, 0, 0, 0);
        open[at] = 0;
    }
    for (int bit = 0; bit < 8 * 16; bit++) {
        const uint8_t one = (uint8_t)(1u << bit % 8);
        open[bit / 8] ^= one;
        holds("a bit of the gate", open, START, 1, 0, 0, 0);
        open[bit / 8] ^= one;
        /* (the marks of formats 2 and 3 are one bit apart) */
        open[ETCS_UNIT_SECTOR + bit / 8] ^= one;
        holds("a bit of the head", open, START, 1, 0, bit == 8 * 7 ? 7 : 0, 0);
        open[ETCS_UNIT_SECTOR + bit / 8] ^= one;
    }
    /* what comes after the head's number isn't looked at */
    for (int at = ETCS_UNIT_SECTOR + 16; at < START; at++)
        open[at] = 0xFF;
    holds("the rest of the head", open, START, 1, 0, 7, 0);
    free(open);
}

/* A number belongs to the slot that it leaves as the remainder. */
static void slots(void) {
    uint8_t *const bytes = start_of(WHOLE, "ETCSGATE", 10, "ETCSHEAD", 10);
    holds("10 in slot 2 of 4", bytes, WHOLE, 4, 2, 10, 0);
    holds("10 in slot 1 of 4", bytes, WHOLE, 4, 1, 0, 0);
    holds("10 in slot 3 of 4", bytes, WHOLE, 4, 3, 0, 0);
    holds("10 in slot 0 of 2", bytes, WHOLE, 2, 0, 10, 0);
    holds("10 in slot 10 of 11", bytes, WHOLE, 11, 10, 10, 0);
    holds("10 in slot 10 of the greatest ring", bytes, WHOLE, 1048576, 10, 10, 0);
    holds("10 in its last slot", bytes, WHOLE, 1048576, 1048575, 0, 0);
    write_number(bytes + 8, MOST);
    write_number(bytes + ETCS_UNIT_SECTOR + 8, MOST);
    holds("2^40 in slot 0 of the greatest ring", bytes, WHOLE, 1048576, 0, MOST, 0);
    holds("2^40 in slot 1 of it", bytes, WHOLE, 1048576, 1, 0, 0);
    holds("2^40 in slot 1 of 3", bytes, WHOLE, 3, 1, MOST, 0);
    free(bytes);
}

static void refusals(void) {
    uint8_t *const bytes = start_of(START, "ETCSGATE", 7, "ETCSHED3", 7);
    memset(&found, 0xAA, sizeof found);
    refused("no bytes", etcs_image_slot_start(NULL, START, 1, 0, &found), ETCS_UNIT_NULL_POINTER);
    is("nowhere to write", etcs_image_slot_start(bytes, START, 1, 0, NULL), ETCS_UNIT_NULL_POINTER);
    refused("no size", etcs_image_slot_start(bytes, 0, 1, 0, &found), ETCS_UNIT_OUT_OF_RANGE);
    refused("a gate alone", etcs_image_slot_start(bytes, ETCS_UNIT_SECTOR, 1, 0, &found), ETCS_UNIT_OUT_OF_RANGE);
    refused("a byte less", etcs_image_slot_start(bytes, START - 1, 1, 0, &found), ETCS_UNIT_OUT_OF_RANGE);
    refused("no slots", etcs_image_slot_start(bytes, START, 0, 0, &found), ETCS_UNIT_NO_SUCH_SLOT);
    refused("slot 1 of 1", etcs_image_slot_start(bytes, START, 1, 1, &found), ETCS_UNIT_NO_SUCH_SLOT);
    refused("the greatest slot", etcs_image_slot_start(bytes, START, 4, UINT64_MAX, &found), ETCS_UNIT_NO_SUCH_SLOT);
    refused("2^20 + 1 slots", etcs_image_slot_start(bytes, START, 1048577, 0, &found), ETCS_UNIT_OUT_OF_RANGE);
    refused("2^32 + 1 slots", etcs_image_slot_start(bytes, START, (UINT64_C(1) << 32) + 1, 0, &found), ETCS_UNIT_OUT_OF_RANGE);
    refused("slot 2^32", etcs_image_slot_start(bytes, START, 1, UINT64_C(1) << 32, &found), ETCS_UNIT_NO_SUCH_SLOT);
    refused("the greatest ring", etcs_image_slot_start(bytes, START, UINT64_MAX, 0, &found), ETCS_UNIT_OUT_OF_RANGE);
    for (uint32_t abi = ETCS_UNIT_ABI - 1; abi <= ETCS_UNIT_ABI + 1; abi += 2)
        refused("another header", etcs_image_slot_start_(bytes, START, abi, 1, 0, &found), ETCS_UNIT_OTHER_ABI);
    free(bytes);
}

/* What a unit writes: of each slot of a ring of four, after one flush more each, the newest block of the slot. */
static void written(void) {
    etcs_unit_output outputs[ETCS_UNIT_OUTPUTS];
    etcs_unit unit = {0};
    uint32_t count = 0;
    medium on = formatted(4);
    is("power-up", powered_up(&on, &unit, ETCS_COLD_UNKNOWN), ETCS_UNIT_OK);
    for (uint64_t number = 2; number <= 9; number++) {
        is("clock", etcs_unit_clock(&unit, number), ETCS_UNIT_OK);
        is("flush", flushed(&on, &unit, outputs, &count), ETCS_UNIT_OK);
        for (uint64_t slot = 0; slot < 4; slot++) {
            const uint64_t wanted = number - (number - slot) % 4;
            holds("what a unit wrote", on.bytes + ETCS_UNIT_SECTOR + WHOLE * slot, WHOLE, 4, slot, wanted <= number ? wanted : 0, wanted < 1 || wanted > number);
        }
    }
    is("close", etcs_unit_close(&unit), ETCS_UNIT_OK);
    free(on.bytes);
}

int main(void) {
    each_row();
    gates();
    slots();
    refusals();
    written();
    return report("starts of slots", 3000);
}
