/* Reads telegrams in hex, one a line, and prints of each what the calls of c/include/etcs.h answer: the number of the fault, and how many
 * packets. The bytes of each end where a page begins that can't be read, so a call that reads after them ends the program. */
#include <stdint.h>
#include <stdio.h>
#include <string.h>
#include <sys/mman.h>
#include <unistd.h>

#include "etcs.h"

static int digit(int letter) {
    const char *digits = "0123456789abcdef", *at = strchr(digits, letter);
    return letter && at ? (int)(at - digits) : -1;
}

int main(void) {
    const size_t page = (size_t)sysconf(_SC_PAGESIZE);
    uint8_t *pages = (uint8_t *)mmap(NULL, 2 * page, PROT_READ | PROT_WRITE, MAP_PRIVATE | MAP_ANONYMOUS, -1, 0);
    if (pages == MAP_FAILED || mprotect(pages + page, page, PROT_NONE))
        return 2;
    char line[4096];
    while (fgets(line, sizeof line, stdin)) {
        const size_t length = strcspn(line, "\n");
        uint8_t *bytes = pages + page - length / 2;
        if (length % 2 || line[length] != '\n' || length / 2 > page)
            return 2;
        for (size_t i = 0; i < length / 2; i++) {
            const int high = digit(line[2 * i]), low = digit(line[2 * i + 1]);
            if (high < 0 || low < 0)
                return 2;
            bytes[i] = (uint8_t)(16 * high + low);
        }
        printf("%u %u\n", (unsigned)etcs_decode(bytes, length / 2), (unsigned)etcs_packet_count(bytes, length / 2));
    }
    return 0;
}
