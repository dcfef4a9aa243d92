#ifndef _DEFAULT_SOURCE
#define _DEFAULT_SOURCE
#endif
#include "room.h"

#include <string.h>
#include <sys/mman.h>
#include <unistd.h>

static char *all;
/* The bytes of a room, in whole pages, and of the page behind it. */
static size_t room, page;

int room_make(size_t count) {
    size_t k;
    void *got;
    page = (size_t)sysconf(_SC_PAGESIZE);
    room = (ROOM_BYTES + page - 1) / page * page;
    got = mmap(NULL, (room + page) * count, PROT_READ | PROT_WRITE, MAP_PRIVATE | MAP_ANONYMOUS, -1,
               0);
    if (got == MAP_FAILED)
        return 0;
    all = (char *)got;
    for (k = 0; k < count; k++)
        if (mprotect(all + (room + page) * k + room, page, PROT_NONE) != 0)
            return 0;
    return 1;
}

float *room_end(size_t k) { return (float *)(void *)(all + (room + page) * k + room); }

void room_mark(size_t k) {
    size_t i;
    for (i = 1; i <= ROOM_FLOATS; i++)
        room_end(k)[-(ptrdiff_t)i] = of_bits(0xffb00000u + (uint32_t)(k * 1024 + i));
}

uint32_t bits_of(float x) {
    uint32_t b;
    memcpy(&b, &x, sizeof b);
    return b;
}

float of_bits(uint32_t b) {
    float x;
    memcpy(&x, &b, sizeof x);
    return x;
}

int is_nan_bits(uint32_t b) { return (b & 0x7fffffffu) > 0x7f800000u; }
