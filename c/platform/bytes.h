/* The calls of string.h that the library asks for, which a machine without a C library gets from bytes.c. */
#ifndef ETCS_BYTES_H
#define ETCS_BYTES_H

#include <stddef.h>
#include <stdint.h>

void *memcpy(void *to, const void *from, size_t count);
void *memmove(void *to, const void *from, size_t count);
void *memset(void *to, int byte, size_t count);
int memcmp(const void *left, const void *right, size_t count);

#endif
