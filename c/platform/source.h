/* Between the calls of the C source and the module in it (source.c). */
#ifndef ETCS_SOURCE_H
#define ETCS_SOURCE_H

#include "etcs_image.h"
#include "etcs_memory.h"
#include "etcs_wasm.h"

/* The module, which is one for the program. */
Z_etcs_instance_t *etcs_source(void);

/* Begins a call; 0 before etcs_memory_use. etcs_source_ends gives back what it took. */
int etcs_source_begins(void);
void etcs_source_ends(void);

/* Copies what a call is handed into the module's memory; the answer is where, or 0 where there is no room, which
 * etcs_source_is_refused reports then. `fields` has a digit for the bytes of each number of a struct. */
uint32_t etcs_source_put(const void *from, uint64_t size, const char *fields);
uint32_t etcs_source_put_handle(const etcs_unit *unit);
int etcs_source_is_refused(void);

/* Copies within the program: what the module wrote, or has to read. */
void etcs_source_write(uint32_t at, const void *from, uint32_t size, const char *fields);
void etcs_source_read(void *to, uint32_t at, uint32_t size, const char *fields);
void etcs_source_get_handle(uint32_t from, etcs_unit *unit);

#endif
