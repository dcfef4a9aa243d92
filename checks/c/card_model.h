/* The rules of settings cards in plain loops, both ways: how a card is spelt and written, and how
   one is judged and read. */
#ifndef CARD_MODEL_H
#define CARD_MODEL_H

#include "../../include/yurgamysh.h"

/* A card has seven lines, four of them matrices: A, Q, H and R, counted from 0. The longest has
   9,260 bytes. */
enum { LINES = 7, MATRICES = 4, MOST_BYTES = 9300 };

struct text {
    uint8_t at[MOST_BYTES];
    size_t len;
};

/* What a card says: both sizes, and the patterns of its matrices. */
struct settings {
    size_t n, m;
    uint32_t entry[MATRICES][YURGAMYSH_MAX_CELLS];
};

/* The entries of matrix k. */
size_t entries_of(const struct settings *s, size_t k);

/* The card that says this. */
void model_spell(const struct settings *s, struct text *card);

/* The same settings with 7fc00000 in the place of every NaN: what is written of them. */
struct settings model_quiet(const struct settings *s);

/* How long the card of these sizes is, from 1 to 16. */
size_t model_length(size_t n, size_t m);

/* The code that the writing of this is answered with, by buffers of these lengths: those of the
   four matrices, and last the bytes. Where it is 0, the card. */
size_t model_write(const struct settings *s, const size_t *lengths, struct text *card);

/* The code that a card by itself is answered with, the buffers being long enough; where it is 0,
   what the card says. */
size_t model_read(const uint8_t *card, size_t len, struct settings *found);

#endif
