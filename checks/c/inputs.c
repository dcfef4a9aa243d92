#include "inputs.h"

#include "room.h"

#include <float.h>
#include <math.h>
#include <string.h>

/* A fixed sequence, so that every run is the same (xorshift, 64 bits). */
uint32_t draw(void) {
    static uint64_t state = 88172645463325252u;
    state ^= state << 13;
    state ^= state >> 7;
    state ^= state << 17;
    return (uint32_t)(state >> 32);
}

float draw_number(enum kind kind) {
    static const uint32_t special[] = {0, 0x80000000u, 0x7f800000u, 0xff800000u, 0x7fc00000u,
                                       1, 0x80000001u, 0x7f7fffffu, 0x3f800000u, 0xbf800000u};
    switch (kind) {
    case ANY_BITS:
        return of_bits(draw());
    case SPECIALS:
        return of_bits(special[draw() % (sizeof special / sizeof special[0])]);
    case FRACTIONS:
        return (float)(draw() % 4000001u) / 1000000.0f - 2.0f;
    case BAD_READING:
        return of_bits(special[2 + draw() % 3]);
    case X_OVERFLOWS:
        return draw() % 2 ? FLT_MAX : -FLT_MAX;
    default:
        return (float)(draw() % 17u) - 8.0f;
    }
}

/* Symmetric with a heavy diagonal; in the square of the last size a pivot may be refused. */
static void fill_square(size_t n, float *at, int last, enum kind kind) {
    size_t i, j;
    for (i = 0; i < n; i++) {
        for (j = 0; j < i; j++)
            at[i * n + j] = at[j * n + i];
        at[i * n + i] = 200.0f + (float)(draw() % 100u);
    }
    if (last && (kind == LATE || kind == BROKEN || (kind == BAD_READING && draw() % 4 == 0))) {
        i = draw() % n;
        at[i * n + i] = kind == BROKEN ? INFINITY : -1e7f;
    }
}

/* What overflows in P and not in x. */
static void fill_large(char rows, char columns, size_t n, size_t cells, float *at) {
    size_t i;
    if (rows == '0' && columns == '0') {
        at[n - 1] = at[n * n - n] = ldexpf(1.0f, 100);
    } else if (rows == '1' && columns == '0') {
        for (i = 0; i < cells; i += n)
            at[i] = 0.0f;
    }
}

/* The count of a record, often at an end of its range, and any bytes behind it. */
static void fill_count(float *at) {
    static const uint8_t ends[] = {0, 1, 254, 255};
    uint32_t bytes = draw();
    uint8_t count = draw() % 2 ? ends[draw() % 4] : (uint8_t)draw();
    memcpy(at, &bytes, sizeof bytes);
    memcpy(at, &count, sizeof count);
}

void fill_record(float *at, enum kind kind) {
    size_t i;
    for (i = 0; i < 6; i++)
        at[i] = draw_number(kind < POSITIVE ? kind : WHOLE);
    fill_count(&at[6]);
    if (kind == P_OVERFLOWS) {
        at[1] = ldexpf(1.0f, 126);
        at[4] = 1.0f;
        at[5] = ldexpf(1.0f, 102) - at[1];
    }
}

void fill_cells(const struct function *f, const struct call *c, size_t k, enum kind kind) {
    size_t i, cells = cells_of(f, c, k);
    float *at = c->buffer[k].at;
    char rows = f->shapes[2 * k], columns = f->shapes[2 * k + 1];
    int sized = rows < 'a', last = rows == (char)('0' + f->sizes - 1);
    if (takes_record(f)) {
        fill_record(at, kind);
        return;
    }
    for (i = 0; i < cells; i++)
        at[i] = draw_number(kind < POSITIVE ? kind : WHOLE);
    if (kind < POSITIVE)
        return;
    if (sized && rows == columns)
        fill_square(c->size[rows - '0'], at, last, kind);
    if (kind == P_OVERFLOWS)
        fill_large(rows, columns, c->size[0], cells, at);
    if (!sized || columns != 'a')
        return;
    if (kind == BAD_READING && last)
        at[draw() % cells] = draw_number(kind);
    for (i = 0; kind == X_OVERFLOWS && i < cells; i++)
        at[i] = draw_number(kind);
}
