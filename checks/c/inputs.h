/* What the buffers hold on entry. */
#ifndef INPUTS_H
#define INPUTS_H

#include "calls.h"

#include <stdint.h>

enum kind {
    WHOLE,     /* whole numbers from -8 to 8 */
    FRACTIONS, /* numbers from -2 to 2 */
    ANY_BITS,  /* any pattern, NaN, infinities and subnormals among them */
    SPECIALS,  /* zeros of both signs, infinities, NaN, the smallest and the largest */
    POSITIVE,  /* square matrices symmetric with a heavy diagonal, so that pivots are above zero */
    LATE, /* the same, but the square of the last size (R, not P) has a cell far below zero on its
             diagonal, so that a later pivot is refused */
    BROKEN, /* the same with +infinity there */
    BAD_READING, /* as POSITIVE, with an infinity or NaN in the vectors of the last size (z, y) and
                    as the number given; one in four is LATE as well */
    X_OVERFLOWS, /* as POSITIVE, with vectors and numbers at the ends of the range */
    P_OVERFLOWS, /* as POSITIVE, with a large entry of P between two states of which H sees the last
                    alone; of the record, p and -r are large and all but equal */
    KINDS
};

uint32_t draw(void);
float draw_number(enum kind kind);
/* Fills a record, its count with any bytes in the padding. */
void fill_record(float *at, enum kind kind);
/* Fills the cells of buffer k. */
void fill_cells(const struct function *f, const struct call *c, size_t k, enum kind kind);

#endif
