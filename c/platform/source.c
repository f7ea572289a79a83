/* The C source of the library: what its calls (etcs_calls.c, which tools/dev/bindings --calls writes) and wabt's translation of the
 * module (etcs_wasm.c) need of C. The module has one memory, which is the buffer that the maker hands to etcs_memory_use; its
 * numbers lie there with the lowest byte first. Where the highest byte comes first, wabt keeps that memory reversed. */
#include "source.h"

#include <stdlib.h>

static Z_etcs_instance_t instance;
static uint8_t *buffer;
static uint32_t bytes; /* of the buffer; 0 before there is one */
static uint32_t scratch, room, used, pieces[2], count, is_refused;

Z_etcs_instance_t *etcs_source(void) {
    return &instance;
}

/* ---- what wabt's translation calls */

uint32_t wasm_rt_call_stack_depth = 0;

bool wasm_rt_is_initialized(void) {
    return true;
}

/* (the module calls no function by its number, so the types of functions are never compared) */
uint32_t wasm_rt_register_func_type(uint32_t params, uint32_t results, ...) {
    (void)params;
    (void)results;
    return 1;
}

void wasm_rt_allocate_memory(wasm_rt_memory_t *memory, uint32_t initial_pages, uint32_t max_pages) {
    (void)initial_pages;
    memory->data = buffer;
    memory->size = bytes;
    memory->pages = bytes / 65536u;
    memory->max_pages = max_pages;
}

void wasm_rt_free_memory(wasm_rt_memory_t *memory) {
    memory->data = NULL;
}

void wasm_rt_trap(wasm_rt_trap_t trap) {
#ifdef ETCS_SOURCE_TRAP
    ETCS_SOURCE_TRAP((uint32_t)trap);
#endif
    (void)trap;
    abort();
}

/* ---- bytes of the module's memory; `fields` has a digit for the bytes of each number of a struct, and is repeated */

#if WABT_BIG_ENDIAN
static uint8_t *byte_at(uint32_t at) {
    return &buffer[bytes - at - 1u];
}

void etcs_source_write(uint32_t at, const void *from, uint32_t size, const char *fields) {
    const char *field = fields;
    for (uint32_t i = 0; i < size;) {
        const uint32_t width = (uint32_t)(*field - '0');
        for (uint32_t k = 0; k < width; k++) {
            *byte_at(at + i + k) = ((const uint8_t *)from)[(i + width) - k - 1u];
        }
        i += width;
        field = (field[1] != '\0') ? &field[1] : fields;
    }
}

void etcs_source_read(void *to, uint32_t at, uint32_t size, const char *fields) {
    const char *field = fields;
    for (uint32_t i = 0; i < size;) {
        const uint32_t width = (uint32_t)(*field - '0');
        for (uint32_t k = 0; k < width; k++) {
            ((uint8_t *)to)[(i + width) - k - 1u] = *byte_at(at + i + k);
        }
        i += width;
        field = (field[1] != '\0') ? &field[1] : fields;
    }
}
#else
void etcs_source_write(uint32_t at, const void *from, uint32_t size, const char *fields) {
    (void)fields;
    (void)memcpy(&buffer[at], from, size);
}

void etcs_source_read(void *to, uint32_t at, uint32_t size, const char *fields) {
    (void)fields;
    (void)memcpy(to, &buffer[at], size);
}
#endif

/* ---- a call */

int etcs_source_begins(void) {
    used = 0;
    count = 0;
    is_refused = 0;
    return bytes != 0u;
}

/* Room for so many bytes: of the module's own place, or a piece. */
static uint32_t taken(uint64_t size) {
    const uint64_t rounded = (size + 15u) & ~(uint64_t)15u;
    uint32_t at = 0;
    if (size <= room - used && rounded <= room - used) {
        at = scratch + used;
        used += (uint32_t)rounded;
    } else if (count < 2u && size <= bytes) {
        at = Z_etcsZ_etcs_piece_take(&instance, size);
        if (at != 0u) {
            pieces[count] = at;
            count++;
        }
    }
    if (at == 0u) {
        is_refused = 1;
    }
    return at;
}

uint32_t etcs_source_put(const void *from, uint64_t size, const char *fields) {
    const uint32_t at = taken(size);
    if (at != 0u) {
        etcs_source_write(at, from, (uint32_t)size, fields);
    }
    return at;
}

uint32_t etcs_source_put_handle(const etcs_unit *unit) {
    const uint64_t all[2] = {(uint64_t)(uintptr_t)unit->at, unit->is_open};
    return etcs_source_put(all, sizeof all, "8");
}

void etcs_source_get_handle(uint32_t from, etcs_unit *unit) {
    uint64_t all[2];
    etcs_source_read(all, from, sizeof all, "8");
    unit->at = (void *)(uintptr_t)all[0];
    unit->is_open = all[1];
}

int etcs_source_is_refused(void) {
    return is_refused != 0u;
}

void etcs_source_ends(void) {
    while (count > 0u) {
        count--;
        Z_etcsZ_etcs_piece_give(&instance, pieces[count]);
    }
}

/* ---- etcs_memory.h */

static const char *const info_fields = "8";

uint32_t etcs_memory_state(etcs_memory_info *info) {
    uint32_t status = (uint32_t)ETCS_UNIT_NOT_OPEN;
    if (info == NULL) {
        status = (uint32_t)ETCS_UNIT_NULL_POINTER;
    } else if (etcs_source_begins() != 0) {
        const uint32_t at = etcs_source_put(info, sizeof *info, info_fields);
        status = Z_etcsZ_etcs_memory_state(&instance, at);
        etcs_source_read(info, at, sizeof *info, info_fields);
    }
    return status;
}

uint32_t etcs_memory_use(void *with, uint64_t size) {
    etcs_memory_info info = {0};
    uint32_t status = (uint32_t)ETCS_UNIT_OK;
    if (with == NULL) {
        status = (uint32_t)ETCS_UNIT_NULL_POINTER;
    } else if (size < ETCS_MEMORY_OF_SOURCE + ETCS_MEMORY_LEAST || size > UINT32_MAX) {
        status = (uint32_t)ETCS_UNIT_OUT_OF_RANGE;
    } else if (etcs_memory_state(&info) == (uint32_t)ETCS_UNIT_OK && info.pieces > 0u) {
        status = (uint32_t)ETCS_UNIT_IS_OPEN;
    } else {
        buffer = with;
        bytes = (uint32_t)size;
        (void)memset(buffer, 0, bytes);
        Z_etcs_init_module();
        Z_etcs_instantiate(&instance);
        scratch = Z_etcsZ_etcs_source_scratch(&instance);
        room = Z_etcsZ_etcs_source_scratch_bytes(&instance);
        status = Z_etcsZ_etcs_source_begin(&instance, bytes);
    }
    return status;
}
