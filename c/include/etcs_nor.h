/**
 * @file
 * A journal on a NOR flash whose erase blocks are larger than a sector, for C99 and C++. It allocates nothing. Each slot
 * has an erase block, and the first sector has one before them. Link only the library of etcs_unit.h.
 *
 *     static etcs_nor nor = {NULL, 4096, 1 + SLOTS, read_flash, program_flash, erase_flash, 0};
 *
 *     equipment.medium = &nor;
 *     equipment.sectors = 1 + 6 * SLOTS;
 *     equipment.read_sector = etcs_nor_read_sector;
 *     equipment.carry_out = etcs_nor_carry_out;
 *
 * Closing a gate programs zeros over it, and erases nothing. A flush erases the block of its slot, unless etcs_nor_erase_ahead
 * did so since the last flush. Erasing ahead removes the oldest block from the ring one flush earlier; the result is one that a
 * loss of power within the next flush may leave too.
 *
 * Each slot has an erase block of its own, however large that is, and the rest of the block is unused: slots can't share a block.
 * After a loss of power within a flush a slot can be written again only after an erasure, which would erase the newest blocks in a
 * shared one. If erase blocks are smaller than ETCS_NOR_BLOCK_BYTES, several adjacent ones count as one, and `erase` erases all of
 * them. At set-up etcs_nor_check_blocks refuses a flash whose blocks don't have `block_bytes`.
 *
 * Format it like any medium, by etcs_unit_format_request and etcs_nor_carry_out, if its first sector isn't that of a
 * journal already; all other bytes may have any value.
 *
 * A block holds the sectors of its slot, gate first, and then ETCS_NOR_READY if it is erased and unused. A loss of power
 * may leave any bytes where the flash was programmed or erased. So a gate counts as open only if at most
 * ETCS_NOR_WRONG_BITS bits of its mark are wrong, and is read as zeros otherwise. A block counts as erased only if
 * ETCS_NOR_READY is complete: it is programmed after the erasure, and removed before anything else is programmed.
 *
 * Ensure that words may be programmed to zeros after they were programmed (a flash with its own check bits for each
 * word often forbids it), and that after a loss of power bytes are read the same each time.
 */
#ifndef ETCS_NOR_H
#define ETCS_NOR_H

#include "etcs_image.h"

#ifdef __cplusplus
extern "C" {
#endif

/** The least size of an erase block, in bytes: six sectors and ETCS_NOR_READY. */
#define ETCS_NOR_BLOCK_BYTES 3080

/** The greatest number of wrong bits, of 64, in the mark of an open gate. */
#define ETCS_NOR_WRONG_BITS 8

/** The bytes after the sectors of a block that is erased and unused. */
#define ETCS_NOR_READY "ETCSREDY"

/* The mark of a gate, and the bytes of a slot. */
#define ETCS_NOR_GATE_ "ETCSGATE"
#define ETCS_NOR_SECTORS_ (UINT64_C(6) * ETCS_UNIT_SECTOR)

/** A NOR flash. Functions that return an int return 1, or 0 if they failed. */
typedef struct {
    void *of;             /**< passed to each function */
    uint64_t block_bytes; /**< the size of an erase block, at least ETCS_NOR_BLOCK_BYTES */
    uint64_t blocks;      /**< the number of blocks: one, and one for each slot */

    /** Reads `len` bytes at this address. */
    int (*read)(void *of, uint64_t at, uint8_t *bytes, size_t len);
    /** Programs `len` bytes at this address: bits go from 1 to 0. Returns 1 only if the flash then has these bytes. */
    int (*program)(void *of, uint64_t at, const uint8_t *bytes, size_t len);
    /** Erases the block at this address: then each byte is 0xFF. Returns 1 only when the erasure is complete. */
    int (*erase)(void *of, uint64_t at);

    uint64_t next; /**< the block to erase ahead: the one after the newest gate; 0 at first, and within a flush */
} etcs_nor;

/** The results of etcs_nor_check_blocks. */
enum etcs_nor_fault {
    ETCS_NOR_OK = 0,             /**< each block is erased by itself */
    ETCS_NOR_BAD_SIZE = 321,     /**< blocks smaller than ETCS_NOR_BLOCK_BYTES, or not 3 to 1,048,577 blocks */
    ETCS_NOR_FAILED = 322,       /**< a read, a program or an erasure failed */
    ETCS_NOR_ERASED_LESS = 323,  /**< an erasure left bytes of its block */
    ETCS_NOR_ERASED_MORE = 324,  /**< an erasure erased bytes of another block, or two addresses are the same one */
    ETCS_NOR_HAS_JOURNAL = 325   /**< the first sector is that of a journal: nothing was changed */
};

/* Whether these eight bytes are the mark, except for at most `most_wrong` bits. */
static inline int etcs_nor_is_(const uint8_t *bytes, const char *mark, unsigned most_wrong) {
    unsigned wrong = 0;
    for (unsigned bit = 0; bit < 64u; bit++) {
        wrong += (((unsigned)bytes[bit / 8u] ^ (unsigned)(uint8_t)mark[bit / 8u]) >> (bit % 8u)) & 1u;
    }
    return wrong <= most_wrong;
}

/* The address of a sector: sector 0 is in the first block, the next six are in the second one. */
static inline uint64_t etcs_nor_at_(const etcs_nor *nor, uint64_t sector) {
    return (sector == 0u) ? 0u : (((((sector - 1u) / 6u) + 1u) * nor->block_bytes) + (((sector - 1u) % 6u) * ETCS_UNIT_SECTOR));
}

static inline int etcs_nor_has_(const etcs_nor *nor, uint64_t sector, uint64_t sectors) {
    return (nor->block_bytes >= (uint64_t)ETCS_NOR_BLOCK_BYTES) && (nor->blocks > 1u) && (sectors <= 5u)
           && (sector < ((6u * nor->blocks) - 5u));
}

/* Programs zeros over a mark. */
static inline int etcs_nor_zero_(const etcs_nor *nor, uint64_t at) {
    static const uint8_t zeros[8] = {0, 0, 0, 0, 0, 0, 0, 0};
    return nor->program(nor->of, at, zeros, sizeof zeros);
}

/* Erases the block at this address. The mark of its gate is zeros before: a partial erasure never makes a mark of zeros. */
static inline int etcs_nor_erase_(const etcs_nor *nor, uint64_t at) {
    return etcs_nor_zero_(nor, at) && nor->erase(nor->of, at);
}

/* Writes to `is_ready` whether the block at this address is erased and unused. */
static inline int etcs_nor_ready_(const etcs_nor *nor, uint64_t at, int *is_ready) {
    uint8_t mark[8];
    const int is_read = nor->read(nor->of, at + ETCS_NOR_SECTORS_, mark, sizeof mark);
    *is_ready = (is_read != 0) && etcs_nor_is_(mark, ETCS_NOR_READY, 0);
    return is_read;
}

/* Closes the gate of the block at this address; that of a ready block is closed already. */
static inline int etcs_nor_close_(const etcs_nor *nor, uint64_t at) {
    int is_ready;
    return etcs_nor_ready_(nor, at, &is_ready) && ((is_ready != 0) || etcs_nor_zero_(nor, at));
}

/* Programs the five sectors after a gate; the block is erased before, unless it is ready. */
static inline int etcs_nor_fill_(const etcs_nor *nor, uint64_t at, const uint8_t *bytes) {
    int is_ready;
    return etcs_nor_ready_(nor, at, &is_ready) && ((is_ready != 0) ? etcs_nor_zero_(nor, at + ETCS_NOR_SECTORS_) : etcs_nor_erase_(nor, at))
           && nor->program(nor->of, at + ETCS_UNIT_SECTOR, bytes, (size_t)5 * ETCS_UNIT_SECTOR);
}

/* Programs a gate, its mark last. */
static inline int etcs_nor_open_(const etcs_nor *nor, uint64_t at, const uint8_t *bytes) {
    return nor->program(nor->of, at + 8u, &bytes[8], (size_t)ETCS_UNIT_SECTOR - 8u) && nor->program(nor->of, at, bytes, 8);
}

/** Reads a sector, ETCS_UNIT_SECTOR bytes, of the journal on `nor`, an etcs_nor: read_sector of etcs_equipment. Returns 1, or 0
 * if that failed. */
static inline int etcs_nor_read_sector(void *nor, uint64_t sector, uint8_t *bytes) {
    const etcs_nor *const on = (const etcs_nor *)nor;
    if (!etcs_nor_has_(on, sector, 1) || !on->read(on->of, etcs_nor_at_(on, sector), bytes, ETCS_UNIT_SECTOR)) {
        return 0;
    }
    if ((sector % 6u) == 1u) {
        const int is_open = etcs_nor_is_(bytes, ETCS_NOR_GATE_, ETCS_NOR_WRONG_BITS);
        for (size_t i = 0; i < (size_t)ETCS_UNIT_SECTOR; i++) {
            bytes[i] = (is_open == 0) ? 0u : ((i < 8u) ? (uint8_t)ETCS_NOR_GATE_[i] : bytes[i]);
        }
    }
    return 1;
}

/** Carries out a request of a unit, or of a formatting, on `nor`, an etcs_nor: carry_out of etcs_equipment. Returns 1, or 0
 * if that failed or there is no such request. */
static inline int etcs_nor_carry_out(void *nor, const etcs_unit_request_info *request, const uint8_t *bytes) {
    etcs_nor *const on = (etcs_nor *)nor;
    const uint64_t sector = request->sector, at = etcs_nor_at_(on, sector);
    int is_done = 0;
    if (request->kind == (uint64_t)ETCS_REQUEST_SYNC) {
        is_done = 1;
    } else if (!etcs_nor_has_(on, sector, request->sectors)) {
        is_done = 0;
    } else if ((sector == 0u) && (request->sectors == 1u)) {
        is_done = on->erase(on->of, at) && on->program(on->of, at, bytes, ETCS_UNIT_SECTOR);
    } else if (((sector % 6u) == 2u) && (request->sectors == 5u)) {
        on->next = 0;
        is_done = etcs_nor_fill_(on, at - ETCS_UNIT_SECTOR, bytes);
    } else if (((sector % 6u) == 1u) && (request->sectors == 1u)) {
        if (bytes[0] == 0u) {
            is_done = etcs_nor_close_(on, at);
        } else {
            const uint64_t after = ((sector - 1u) / 6u) + 2u;
            is_done = etcs_nor_open_(on, at, bytes);
            on->next = (after < on->blocks) ? after : 1u;
        }
    }
    return is_done;
}

/** Closes the gate of the slot that the next flush uses, and erases its block, so that the flush doesn't wait for that. Call it
 * after a release, if there is time, for example at the end of an executive's `feed`; you may leave it out. Returns 1 if the block is
 * erased, or there is none to erase; 0 if that failed: then the next flush tries again. */
static inline int etcs_nor_erase_ahead(etcs_nor *nor) {
    const uint64_t at = nor->next * nor->block_bytes;
    int is_ready = 1, is_done = 1;
    if (nor->next > 0u) {
        is_done = etcs_nor_ready_(nor, at, &is_ready);
    }
    if ((is_done != 0) && (is_ready == 0)) {
        is_done = etcs_nor_erase_(nor, at) && nor->program(nor->of, at + ETCS_NOR_SECTORS_, (const uint8_t *)ETCS_NOR_READY, 8);
    }
    return is_done;
}

/* ---- at set-up */

/* The address of the last eight bytes of a block. */
static inline uint64_t etcs_nor_end_(const etcs_nor *nor, uint64_t block) {
    return ((block + 1u) * nor->block_bytes) - 8u;
}

/* Writes the trial that etcs_nor_check_blocks leaves at both ends of a block: neither a gate's mark nor ETCS_NOR_READY. */
static inline void etcs_nor_trial_(uint64_t block, uint8_t *mark) {
    for (unsigned byte = 0; byte < 8u; byte++) {
        mark[byte] = (uint8_t)((byte < 4u) ? 0x5Au : (block >> (8u * (byte - 4u))));
    }
}

/* Whether each byte of a block is 0xFF. */
static inline uint32_t etcs_nor_is_erased_(const etcs_nor *nor, uint64_t block) {
    uint8_t bytes[64];
    uint32_t fault = (uint32_t)ETCS_NOR_OK;
    for (uint64_t at = 0; (fault == (uint32_t)ETCS_NOR_OK) && (at < nor->block_bytes); at += sizeof bytes) {
        const uint64_t rest = nor->block_bytes - at;
        const size_t len = (rest < sizeof bytes) ? (size_t)rest : sizeof bytes;
        fault = nor->read(nor->of, (block * nor->block_bytes) + at, bytes, len) ? (uint32_t)ETCS_NOR_OK : (uint32_t)ETCS_NOR_FAILED;
        for (size_t i = 0; (fault == (uint32_t)ETCS_NOR_OK) && (i < len); i++) {
            fault = (bytes[i] == 0xFFu) ? (uint32_t)ETCS_NOR_OK : (uint32_t)ETCS_NOR_ERASED_LESS;
        }
    }
    return fault;
}

/* Programs zeros at both ends of a block, erases it, and programs its trial there. */
static inline uint32_t etcs_nor_try_(const etcs_nor *nor, uint64_t block) {
    const uint64_t first = block * nor->block_bytes, end = etcs_nor_end_(nor, block);
    uint8_t mark[8];
    uint32_t fault = (uint32_t)ETCS_NOR_FAILED;
    etcs_nor_trial_(block, mark);
    if (etcs_nor_zero_(nor, first) && etcs_nor_zero_(nor, end) && nor->erase(nor->of, first)) {
        fault = etcs_nor_is_erased_(nor, block);
    }
    if ((fault == (uint32_t)ETCS_NOR_OK) && !(nor->program(nor->of, first, mark, sizeof mark) && nor->program(nor->of, end, mark, sizeof mark))) {
        fault = (uint32_t)ETCS_NOR_FAILED;
    }
    return fault;
}

/* Whether both ends of a block still have its trial. */
static inline uint32_t etcs_nor_is_tried_(const etcs_nor *nor, uint64_t block) {
    uint8_t mark[8], first[8], end[8];
    uint32_t fault = (uint32_t)ETCS_NOR_OK;
    etcs_nor_trial_(block, mark);
    if (!nor->read(nor->of, block * nor->block_bytes, first, sizeof first) || !nor->read(nor->of, etcs_nor_end_(nor, block), end, sizeof end)) {
        fault = (uint32_t)ETCS_NOR_FAILED;
    }
    for (unsigned i = 0; (fault == (uint32_t)ETCS_NOR_OK) && (i < 8u); i++) {
        fault = ((first[i] == mark[i]) && (end[i] == mark[i])) ? (uint32_t)ETCS_NOR_OK : (uint32_t)ETCS_NOR_ERASED_MORE;
    }
    return fault;
}

/* Returns HAS_JOURNAL if the first sector is that of a journal. */
static inline uint32_t etcs_nor_journal_(const etcs_nor *nor) {
    uint8_t first[ETCS_UNIT_SECTOR];
    etcs_image facts;
    uint32_t fault = (uint32_t)ETCS_NOR_FAILED;
    if (nor->read(nor->of, 0, first, sizeof first)) {
        fault = (etcs_image_facts(first, sizeof first, &facts) == (uint32_t)ETCS_UNIT_OK) ? (uint32_t)ETCS_NOR_HAS_JOURNAL : (uint32_t)ETCS_NOR_OK;
    }
    return fault;
}

/** Checks that an erasure erases the block at its address, all of it and nothing else. Call it at set-up, before the formatting: IT
 * ERASES EVERYTHING, each block once, unless the flash has a journal; to discard a journal, erase its first block before.
 * Returns enum etcs_nor_fault. Use the flash only after ETCS_NOR_OK; HAS_JOURNAL says nothing about its blocks. */
ETCS_MUST_USE
static inline uint32_t etcs_nor_check_blocks(const etcs_nor *nor) {
    const uint64_t most = UINT64_C(1048577);
    uint32_t fault = (uint32_t)ETCS_NOR_OK;
    if ((nor->block_bytes < (uint64_t)ETCS_NOR_BLOCK_BYTES) || (nor->blocks < 3u) || (nor->blocks > most) || (nor->block_bytes > (UINT64_MAX / most))) {
        fault = (uint32_t)ETCS_NOR_BAD_SIZE;
    } else {
        fault = etcs_nor_journal_(nor);
    }
    for (uint64_t block = 0; (fault == (uint32_t)ETCS_NOR_OK) && (block < nor->blocks); block++) {
        fault = etcs_nor_try_(nor, block);
    }
    for (uint64_t block = 0; (fault == (uint32_t)ETCS_NOR_OK) && (block < nor->blocks); block++) {
        fault = etcs_nor_is_tried_(nor, block);
    }
    return fault;
}

#ifdef __cplusplus
}
#endif

#endif
