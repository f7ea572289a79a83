/* What this build of the library is: etcs_build_info and etcs_build_proof of etcs_unit.h. tools/library defines ETCS_BUILD_TEXT
 * and ETCS_BUILD_PROOF. None of it is proved. */
#include "etcs_memory.h"

#ifdef __ELF__
__asm__(".ident \"" ETCS_BUILD_TEXT "\"");
#endif

static const char text[] = ETCS_BUILD_TEXT;

uint32_t etcs_build_info_(uint8_t *out, uint64_t room, uint32_t *len) {
    const uint32_t size = (uint32_t)(sizeof text - 1u);
    uint32_t status = (uint32_t)ETCS_UNIT_NO_ROOM;
    if (room >= size) {
        for (uint32_t i = 0; i < size; i++) {
            out[i] = (uint8_t)text[i];
        }
        *len = size;
        status = (uint32_t)ETCS_UNIT_OK;
    }
    return status;
}

uint32_t etcs_build_proof(void) {
    return (uint32_t)ETCS_BUILD_PROOF;
}
