/**
 * @file
 * A memory buffer of your own for the onboard unit, for the library without malloc (libetcs_unit_no_malloc.a, and all
 * libraries for machines without a C library).
 *
 *     static uint8_t arena[ETCS_MEMORY_BYTES(16, 32, 100, 100)];
 *
 *     if (etcs_memory_use(arena, sizeof arena) != ETCS_UNIT_OK)
 *         brake();
 *     ...
 *     if (etcs_unit_begin(&unit, sectors, ETCS_COLD_UNKNOWN) != ETCS_UNIT_OK)
 *
 * The library allocates all memory from this buffer. The time of an allocation doesn't depend on earlier ones, except for
 * the bytes of a piece that is moved: the allocator is TLSF (two
 * levels of lists, each of sizes within a 16th of each other, and a map of which lists have a piece), as M. Masmano, I.
 * Ripoll, A. Crespo and J. Real describe it in "TLSF: a new dynamic memory allocator for real-time systems" (16th
 * Euromicro Conference on Real-Time Systems, 2004).
 *
 * The buffer also limits what a track may announce (docs/explain/integration.md, "Memory").
 *
 * If there is no piece for a request it is refused: opening returns OPEN_NO_MEMORY; an input, etcs_image_replay and
 * etcs_image_why return NO_MEMORY, and nothing has changed. All units of the program share the buffer. So only one task at a
 * time may make calls that allocate or free memory (etcs_unit_begin, _open, _provide, _fail and _close, the inputs,
 * etcs_image_replay and _why, and those below), even for different units.
 *
 * You must ensure that nobody else reads or writes the buffer until another one is used.
 */
#ifndef ETCS_MEMORY_H
#define ETCS_MEMORY_H

#include "etcs_unit.h"

#ifdef __cplusplus
extern "C" {
#endif

/** The least size of a buffer, in bytes. */
#define ETCS_MEMORY_LEAST UINT64_C(4096)

/** The greatest size of a buffer, in bytes. */
#define ETCS_MEMORY_MOST UINT64_C(0x400000000)

/** The bytes of a buffer that the library as C source (`tools/library --c`) needs for its stack and its tables, on top of what
 * units need. */
#define ETCS_MEMORY_OF_SOURCE UINT64_C(262144)

/** The greatest need of one unit that has a buffer to itself, in bytes, for these numbers:
 *
 * - packets: the most packets that the telegrams of one group have together (264: eight telegrams of 33);
 * - restrictions: temporary speed restrictions in force at once, from 1 km behind the train onward, with those ahead;
 * - gradients, speeds: segments of the gradient profile and of the static speed profile, from 1 km behind the train onward,
 *   with those ahead.
 *
 * A unit with a buffer of this size is never refused memory after its opening, as long as the track keeps to these numbers:
 * docs/explain/integration.md says why, and how it was tested. */
#define ETCS_MEMORY_BYTES(packets, restrictions, gradients, speeds)                                                    \
    (UINT64_C(32768) + UINT64_C(7168) * (uint64_t)(packets) + UINT64_C(136) * (uint64_t)(restrictions)                 \
     + UINT64_C(68) * (uint64_t)(gradients) + UINT64_C(136) * (uint64_t)(speeds))

/** The use of the buffer. */
typedef struct {
    uint64_t size;      /**< the greatest sum of all pieces, each with 16 bytes for the allocator */
    uint64_t used;      /**< their sum now */
    uint64_t most_used; /**< their greatest sum since etcs_memory_use */
    uint64_t pieces;    /**< the number of pieces now */
    uint64_t refused;   /**< the number of requests refused since etcs_memory_use */
} etcs_memory_info;

ETCS_UNIT_ASSERT(sizeof(etcs_memory_info) == 40u && offsetof(etcs_memory_info, most_used) == 16u && offsetof(etcs_memory_info, refused) == 32u);

/** Makes the library allocate all memory from this buffer, which may be at any address. Call it once, before the first unit is
 * opened: before that every request is refused. Returns OK; OUT_OF_RANGE if the buffer has fewer bytes than
 * ETCS_MEMORY_LEAST or more than ETCS_MEMORY_MOST; IS_OPEN if memory of an earlier buffer is still in use (a unit is
 * open); NULL_POINTER. Unless it returns OK, nothing has changed. */
ETCS_MUST_USE
uint32_t etcs_memory_use(void *buffer, uint64_t size);

/** Writes how much of the buffer is used. Call it to choose the buffer's size, or to watch it. Returns OK; NOT_OPEN if
 * no buffer is used; NULL_POINTER. */
uint32_t etcs_memory_state(etcs_memory_info *info);

#ifdef __cplusplus
}
#endif

#endif
