/* Settings, and texts that are cards or all but cards. */
#ifndef CARD_TEXTS_H
#define CARD_TEXTS_H

#include "card_model.h"

/* Settings of these sizes with entries of every kind, NaN of several patterns among them. */
struct settings draw_settings(size_t n, size_t m);

/* Spells a card of few entries, its sizes going by the round; in two of seven one has two digits.
   Gives what the card says. */
struct settings few(size_t round, struct text *t);

/* Where line k begins, counted from 1; the end for line 8. */
size_t line_start(const struct text *t, size_t k);

/* Replaces the bytes from one position up to another by these. */
void replace_bytes(struct text *t, size_t from, size_t to, const void *bytes, size_t count);

/* What stands in line k behind its key becomes this; the newline stays. */
void set_value(struct text *t, size_t k, const char *value, size_t count);

/* Puts line k of one text behind another. */
void add_line(struct text *to, const struct text *t, size_t k);

#endif
