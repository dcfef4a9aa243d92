/* The functions of the header as rows of a table: their sizes and buffers, and how they are called.
   Those of one number, those over a row of feeders and those of cards are not here: bindings.c,
   feeders.c, cards.c and card_writing.c. */
#ifndef CALLS_H
#define CALLS_H

#include "../../include/yurgamysh.h"

/* A record has six floats, and its count with the padding as a seventh. */
enum { MOST_SIZES = 3, MOST_BUFFERS = 12, RECORD_FLOATS = 7 };

struct lent {
    float *at;
    size_t len;
};

struct call {
    size_t size[MOST_SIZES];
    struct lent buffer[MOST_BUFFERS];
    size_t row, column;
    float value[2];
};

struct function {
    const char *name;
    size_t sizes;
    /* Two letters a buffer, its rows and columns: 0 to 2 are the size of this index, a is 1, and ag
       the record of a yarn. */
    const char *shapes;
    /* A letter a buffer: w where the call may write it, r where it only reads it, k where an
       accepted call writes it and a refused one keeps it: x and P of a correction, and the record
       but for its count. */
    const char *writes;
    /* Buffers past this count come with no length: the one float that get writes, the record. */
    size_t counted;
    int has_row, has_column, has_pivots;
    size_t (*lib)(const struct call *);
    /* What the rules make of the buffers once refusals 1 to 3 are out of the way; the code. */
    size_t (*model)(const struct call *);
};

extern const struct function functions[];
extern const size_t function_count;

int takes_record(const struct function *f);

/* The cells of buffer k's matrix; each size is 1 to 16. */
size_t cells_of(const struct function *f, const struct call *c, size_t k);

/* Refusals 1 to 3, in their order; 0 for none. */
size_t gate(const struct function *f, const struct call *c);

#endif
