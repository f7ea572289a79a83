/* A medium in memory, and the count of answers: for the tests of the unit from C. */
#ifndef MEDIUM_H
#define MEDIUM_H

#include <stdio.h>
#include <stdlib.h>
#include <string.h>

#include "etcs_unit.h"

static unsigned tried, wrong;

/* Counts an answer, and says about one that isn't as wanted. */
static inline void is(const char *what, uint64_t found, uint64_t wanted) {
    tried++;
    if (found != wanted) {
        wrong++;
        printf("%s: %llu, wanted %llu\n", what, (unsigned long long)found, (unsigned long long)wanted);
    }
}

/* How many were tried, and the exit status: 1 also where fewer were tried than there are. */
static inline int report(const char *what, unsigned least) {
    printf("%s: %u answers, %u of them wrong\n", what, tried, wrong);
    if (tried < least)
        printf("%s: there are %u to be tried\n", what, least);
    return wrong > 0 || tried < least;
}

/* Goes on with a digest of bytes (FNV-1a), which begins with DIGEST. */
#define DIGEST UINT64_C(0xCBF29CE484222325)

static inline void digest(uint64_t *to, const void *from, size_t len) {
    for (size_t i = 0; i < len; i++)
        *to = (*to ^ ((const uint8_t *)from)[i]) * UINT64_C(0x100000001B3);
}

/* A number below `below`, pseudo-random. */
static inline uint32_t draw(uint32_t below) {
    static uint64_t drawn = 1;
    drawn ^= drawn << 13;
    drawn ^= drawn >> 7;
    drawn ^= drawn << 17;
    return (uint32_t)((drawn >> 32) % below);
}

typedef struct {
    uint8_t *bytes;
    size_t len;
} medium;

static inline void do_on(medium *on, const etcs_unit_request_info *request, const uint8_t *bytes) {
    if (request->kind == ETCS_REQUEST_WRITE)
        memcpy(on->bytes + request->sector * ETCS_UNIT_SECTOR, bytes, (size_t)request->sectors * ETCS_UNIT_SECTOR);
}

static inline medium formatted(uint32_t slots) {
    const size_t len = (1 + 6 * (size_t)slots) * ETCS_UNIT_SECTOR;
    medium on = {(uint8_t *)calloc(1, len), len};
    etcs_unit_request_info request;
    uint8_t bytes[ETCS_UNIT_SECTOR];
    for (uint32_t i = 0; etcs_unit_format_request(slots, i, &request, bytes, sizeof bytes) == ETCS_UNIT_OK; i++)
        do_on(&on, &request, bytes);
    return on;
}

/* The bytes of a sector. */
static inline const uint8_t *sector_of(const medium *on, uint64_t sector) {
    return on->bytes + sector * ETCS_UNIT_SECTOR;
}

/* Carries out one request, and says so. */
static inline uint32_t do_request(medium *on, etcs_unit *unit, const etcs_unit_request_info *request,
                                  const uint8_t *bytes) {
    if (request->kind == ETCS_REQUEST_READ)
        return etcs_unit_provide(unit, request->sector, sector_of(on, request->sector), ETCS_UNIT_SECTOR);
    do_on(on, request, bytes);
    return etcs_unit_done(unit);
}

/* Carries out all that is to be done. */
static inline uint32_t carry_out(medium *on, etcs_unit *unit) {
    etcs_unit_request_info request;
    uint8_t bytes[ETCS_UNIT_REQUEST_BYTES];
    uint32_t status;
    while ((status = etcs_unit_request(unit, &request, bytes, sizeof bytes)) == ETCS_UNIT_OK)
        if ((status = do_request(on, unit, &request, bytes)) != ETCS_UNIT_OK)
            return status;
    return status == ETCS_UNIT_NO_SUCH_REQUEST ? (uint32_t)ETCS_UNIT_OK : status;
}

/* Prepares, carries out and releases; how many outputs there are goes to `count`. */
static inline uint32_t flushed(medium *on, etcs_unit *unit, etcs_unit_output *outputs, uint32_t *count) {
    uint32_t status = etcs_unit_prepare(unit);
    if (status == ETCS_UNIT_OK)
        status = carry_out(on, unit);
    return status == ETCS_UNIT_OK ? etcs_unit_release(unit, outputs, ETCS_UNIT_OUTPUTS, count) : status;
}

/* Carries out a power-up that answered so, and releases it. */
static inline uint32_t released_power_up(medium *on, etcs_unit *unit, uint32_t status) {
    etcs_unit_output outputs[ETCS_UNIT_OUTPUTS];
    uint32_t count;
    if (status == ETCS_UNIT_OK)
        status = carry_out(on, unit);
    return status == ETCS_UNIT_OK ? etcs_unit_release(unit, outputs, ETCS_UNIT_OUTPUTS, &count) : status;
}

/* Opens a unit, and carries out its power-up. */
static inline uint32_t powered_up(medium *on, etcs_unit *unit, uint32_t cold) {
    return released_power_up(on, unit, etcs_unit_open(unit, on->bytes, on->len, cold));
}

#endif
