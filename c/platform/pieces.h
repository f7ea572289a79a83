/* The allocator of the library without malloc (c/include/etcs_memory.h): pieces of one buffer, by TLSF. */
#ifndef ETCS_PIECES_H
#define ETCS_PIECES_H

#include "etcs_memory.h"

/* A piece of so many bytes, at an address that 16 divides; NULL where there is none. */
void *etcs_piece_take(uint64_t size);

/* The same piece with so many bytes, the first ones of which are as they were; it may lie elsewhere. Where that fails,
 * NULL, and the piece is as it was. */
void *etcs_piece_resize(void *piece, uint64_t size);

/* Gives a piece back that is out. */
void etcs_piece_give(void *piece);

/* The same buffer has so many bytes more at its end: 0 where there is no buffer, or where it would be too large. */
int etcs_piece_more(uint64_t size);

#endif
