/**
 * @file
 * Balise telegrams (ERTMS/ETCS level 1, UNISIG SUBSET-026 issue 2.3.0), for C and C++.
 *
 * Link with libetcs_unit.a (tools/library).
 *
 * The functions are proved to do what this header states, on every input, if the caller ensures:
 *
 * - `bytes` is not null, even if `len` is 0 (then nothing is read, and any pointer that is not null will do);
 * - the `len` bytes at `bytes` may be read, and `len` is at most PTRDIFF_MAX;
 * - nobody writes to them while the call runs.
 *
 * The calls don't test this. A call reads only those bytes, allocates nothing, keeps nothing, and
 * always returns. So several threads may call at once, also on the same bytes.
 */
#ifndef ETCS_H
#define ETCS_H

#include <stddef.h>
#include <stdint.h>

#ifdef __cplusplus
extern "C" {
#endif

/** Before a call whose result may mean the brake: a compiler warns if a program drops it. */
#if (defined(__cplusplus) && (__cplusplus >= 201703L)) || (defined(__STDC_VERSION__) && (__STDC_VERSION__ >= 202311L))
#define ETCS_MUST_USE [[nodiscard]]
#elif defined(__GNUC__)
#define ETCS_MUST_USE __attribute__((__warn_unused_result__))
#else
#define ETCS_MUST_USE
#endif

/** The greatest size of a telegram, in bytes: its user bits (see etcs_unit_telegram). */
#define ETCS_TELEGRAM_BYTES 104

/** Why bytes contain no telegram. TOO_LONG comes before all others; otherwise the first fault in the
 * order of the bits is returned. */
enum etcs_fault {
    ETCS_OK = 0,            /**< no fault */
    ETCS_TRUNCATED = 1,     /**< the bits end within the header or a packet */
    ETCS_WRONG_LENGTH = 2,  /**< L_PACKET is not the number of bits of its packet */
    ETCS_SPARE = 3,         /**< a variable has a number that the language keeps spare */
    ETCS_OUT_OF_RANGE = 4,  /**< a variable has a number outside its range */
    ETCS_WRONG_VERSION = 5, /**< M_VERSION is not 16 */
    ETCS_NOT_UPLINK = 6,    /**< Q_UPDOWN is not 1 */
    ETCS_NOT_BALISE = 7,    /**< Q_MEDIA is not 0 */
    ETCS_NO_END = 8,        /**< the bits end before the end mark */
    ETCS_TOO_LONG = 9       /**< there are more than ETCS_TELEGRAM_BYTES bytes */
};

/** Tests whether bytes contain a telegram (SUBSET-026, 8.4.2). Call it to check a telegram outside a unit; etcs_unit_telegram
 * needs no such check. Returns ETCS_OK, or the number of the fault (enum etcs_fault). The highest bit of each byte is its
 * first. Any bits may follow the end mark. */
ETCS_MUST_USE
uint32_t etcs_decode(const uint8_t *bytes, uint64_t len);

/** Counts the packets before the end mark: 0 to 33. Returns 0 if the bytes contain no telegram, and also if they contain
 * one without a packet; etcs_decode distinguishes the two. */
uint32_t etcs_packet_count(const uint8_t *bytes, uint64_t len);

#ifdef __cplusplus
}
#endif

#endif
