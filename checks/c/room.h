/* Memory to lend: each buffer ends where a page begins that nobody may touch, so that a read or a
   write past its length stops the program; what lies before it is marked and compared. */
#ifndef ROOM_H
#define ROOM_H

#include <stddef.h>
#include <stdint.h>

/* Floats that are filled and compared in front of the end: the largest buffer with a tail, and a
   marked stretch before it. */
enum { ROOM_FLOATS = 256 + 8 + 32 };

/* Bytes that a room has: the longest card and more. */
enum { ROOM_BYTES = 16384 };

/* Makes count rooms; 0 where the machine has none. */
int room_make(size_t count);

/* The end of room k: a buffer of len floats starts at room_end(k) - len. */
float *room_end(size_t k);

/* Fills room k with marks, each a NaN of its own that no computation makes. */
void room_mark(size_t k);

uint32_t bits_of(float x);
float of_bits(uint32_t b);
int is_nan_bits(uint32_t b);

#endif
