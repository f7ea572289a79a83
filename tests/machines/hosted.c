/* The driver on a system with a C library: the script on standard input, the answers on standard output. With OWN_MEMORY over the library that
 * takes memory from a buffer; AS_SOURCE says that this is the C source, which takes some itself, and for an image that it is handed. */
#include <stdio.h>

#include "platform.h"

#ifdef OWN_MEMORY
#include "etcs_memory.h"
#ifdef AS_SOURCE
#define MORE (ETCS_MEMORY_OF_SOURCE + 64 * 3072)
#else
#define MORE 0
#endif
#endif

int next_char(void) {
    return getchar();
}

void put_char(char of) {
    putchar(of);
}

int main(void) {
#ifdef OWN_MEMORY
    static uint8_t buffer[2 * ETCS_MEMORY_BYTES(264, 400, 9000, 9000) + MORE];
    if (etcs_memory_use(buffer, sizeof buffer) != ETCS_UNIT_OK)
        return 1;
#endif
    drive();
    return 0;
}
