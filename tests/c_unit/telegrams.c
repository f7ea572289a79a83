/* Which packets of a telegram a unit doesn't use, through the call of etcs_unit.h. The bits are by hand, as
 * SUBSET-026, 7.4.2 and 8.4.2 lays them out, and so is what is wanted. */
#include "medium.h"

#define HEADER "1 0010000 0 000 000 00 11111111 0000000001 00000000000010 1 "
#define END "11111111"
#define STOP_IN_SR "10001001 10 0000000011000 0 "
#define REVOCATION_REVERSE "01000010 00 0000000011111 00000001 "
#define RESTRICTION_NOMINAL "01000001 01 0000001000111 01 00000111 000000001100100 000000000110010 0 0000100 "
#define INFILL "10001000 10 0000000100110 0 00000000000101 "
/* A packet 3 of issue 2.3.0 for one country: a unit refuses its telegram. */
#define INSTALLED                                                                                                      \
    "00000011 10 0000010111010 01 111111111111111 00001 0000000111 0000110 0001000 0000110 0010100 0001000 "           \
    "000000000000010 "                                                                                                 \
    "1 0 0000000 0000110 000000011001000 00111100 000000011001000 01 11111111 1 111111111111111 0 "

/* The bytes of some bits, the last one padded with zeros. */
static size_t packed(const char *bits, uint8_t *bytes) {
    size_t count = 0;
    memset(bytes, 0, 2 * ETCS_TELEGRAM_BYTES);
    for (; *bits != 0; bits++) {
        if (*bits == ' ')
            continue;
        if (*bits == '1')
            bytes[count / 8] = (uint8_t)(bytes[count / 8] | (0x80u >> (count % 8)));
        count++;
    }
    return (count + 7) / 8;
}

static void unused(const char *bits, uint32_t mode, uint32_t direction, const etcs_packet_unused *wanted,
                   uint32_t count) {
    uint8_t bytes[2 * ETCS_TELEGRAM_BYTES];
    char what[80];
    size_t len = packed(bits, bytes);
    for (uint32_t index = 0; index <= count; index++) {
        etcs_packet_unused packet = {9999, 9999, 9999, 9999};
        (void)snprintf(what, sizeof what, "mode %u direction %u packet %u", (unsigned)mode, (unsigned)direction,
                       (unsigned)index);
        is(what, etcs_telegram_unused(bytes, len, mode, direction, index, &packet),
           index < count ? ETCS_UNIT_OK : ETCS_UNIT_END);
        is(what, packet.start, index < count ? wanted[index].start : 9999);
        is(what, packet.bits, index < count ? wanted[index].bits : 9999);
        is(what, packet.number, index < count ? wanted[index].number : 9999);
        is(what, packet.why, index < count ? wanted[index].why : 9999);
    }
}

static void uses(void) {
    static const char bits[] = HEADER RESTRICTION_NOMINAL REVOCATION_REVERSE STOP_IN_SR INFILL RESTRICTION_NOMINAL END;
    const etcs_packet_unused restriction = {50, 71, 65, ETCS_UNUSED_OTHER_DIRECTION},
                             revocation = {121, 31, 66, ETCS_UNUSED_OTHER_DIRECTION};
    const etcs_packet_unused stop = {152, 24, 137, ETCS_UNUSED_NOT_KNOWN}, infill = {176, 38, 136, ETCS_UNUSED_INFILL};
    const etcs_packet_unused after_infill = {214, 71, 65, ETCS_UNUSED_INFILL};
    const etcs_packet_unused failed[] = {
        {50, 71, 65, ETCS_UNUSED_IN_MODE}, {121, 31, 66, ETCS_UNUSED_IN_MODE}, stop, infill, after_infill};
    const etcs_packet_unused nominal[] = {revocation, stop, infill, after_infill},
                             reverse[] = {restriction, stop, infill, after_infill};
    const etcs_packet_unused not_known[] = {restriction, revocation, stop, infill, after_infill};
    const etcs_packet_unused refused[] = {
        {50, 24, 137, ETCS_UNUSED_REFUSED}, {74, 186, 3, ETCS_UNUSED_REFUSED}, {260, 31, 66, ETCS_UNUSED_REFUSED}};
    const etcs_packet_unused in_post_trip[] = {{50, 38, 136, ETCS_UNUSED_INFILL}};
    uint8_t byte = 0x90;
    etcs_packet_unused packet;
    unused(bits, ETCS_FULL_SUPERVISION, ETCS_DIRECTION_NOMINAL, nominal, 4);
    unused(bits, ETCS_SHUNTING, ETCS_DIRECTION_REVERSE, reverse, 4);
    unused(bits, ETCS_UNFITTED, ETCS_DIRECTION_NOT_KNOWN, not_known, 5);
    unused(bits, ETCS_SYSTEM_FAILURE, ETCS_DIRECTION_NOMINAL, failed, 5);
    unused(HEADER STOP_IN_SR INSTALLED REVOCATION_REVERSE END, ETCS_FULL_SUPERVISION, ETCS_DIRECTION_NOMINAL, refused,
           3);
    unused(HEADER INFILL END, ETCS_POST_TRIP, ETCS_DIRECTION_NOMINAL, in_post_trip, 1);
    unused(HEADER END, ETCS_FULL_SUPERVISION, ETCS_DIRECTION_NOMINAL, refused, 0);
    is("a mode that isn't there", etcs_telegram_unused(&byte, 1, 5, ETCS_DIRECTION_NOMINAL, 0, &packet),
       ETCS_UNIT_OUT_OF_RANGE);
    is("a mode of more than a byte", etcs_telegram_unused(&byte, 1, 256, ETCS_DIRECTION_NOMINAL, 0, &packet),
       ETCS_UNIT_OUT_OF_RANGE);
    is("a direction that isn't there", etcs_telegram_unused(&byte, 1, ETCS_SHUNTING, 3, 0, &packet),
       ETCS_UNIT_OUT_OF_RANGE);
}

static void nulls(void) {
    uint8_t byte = 0;
    etcs_packet_unused packet;
    is("no telegram with packets", etcs_telegram_unused(NULL, 0, 0, 0, 0, &packet), ETCS_UNIT_NULL_POINTER);
    is("no output for a packet", etcs_telegram_unused(&byte, 1, 0, 0, 0, NULL), ETCS_UNIT_NULL_POINTER);
}

int main(void) {
    uses();
    nulls();
    return report("telegrams", 150);
}
