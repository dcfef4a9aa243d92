#include "card_model.h"

#include "room.h"

#include <stdio.h>
#include <string.h>

static const char *const keys[LINES] = {
    "edition=", "states=", "observations=", "a=", "q=", "h=", "r="};

size_t entries_of(const struct settings *s, size_t k) {
    return (k < 2 ? s->n : s->m) * (k < 3 ? s->n : s->m);
}

/* Puts words behind the text. */
static void put(struct text *t, const char *words) {
    memcpy(t->at + t->len, words, strlen(words));
    t->len += strlen(words);
}

void model_spell(const struct settings *s, struct text *card) {
    char word[80];
    size_t k, i;
    card->len = 0;
    sprintf(word, "edition=1\nstates=%u\nobservations=%u\n", (unsigned)s->n, (unsigned)s->m);
    put(card, word);
    for (k = 0; k < MATRICES; k++) {
        for (i = 0; i < entries_of(s, k); i++) {
            sprintf(word, "%s%08lx", i == 0 ? keys[k + 3] : ",", (unsigned long)s->entry[k][i]);
            put(card, word);
        }
        put(card, "\n");
    }
}

struct settings model_quiet(const struct settings *s) {
    struct settings quiet = *s;
    size_t k, i;
    for (k = 0; k < MATRICES; k++)
        for (i = 0; i < entries_of(s, k); i++)
            if (is_nan_bits(s->entry[k][i]))
                quiet.entry[k][i] = 0x7fc00000u;
    return quiet;
}

size_t model_length(size_t n, size_t m) {
    return 40 + (n < 10 ? 1 : 2) + (m < 10 ? 1 : 2) + 9 * (2 * n * n + m * n + m * m);
}

size_t model_write(const struct settings *s, const size_t *lengths, struct text *card) {
    struct settings quiet;
    size_t k;
    if (s->n < 1 || s->n > 16)
        return 100;
    if (s->m < 1 || s->m > 16)
        return 101;
    for (k = 0; k < MATRICES; k++)
        if (lengths[k] < entries_of(s, k))
            return 200 + k;
    quiet = model_quiet(s);
    model_spell(&quiet, card);
    return lengths[MATRICES] < card->len ? 200 + MATRICES : 0;
}

/* The bytes before the first newline; all of them where there is none. */
static size_t line_length(const uint8_t *at, size_t left) {
    size_t i = 0;
    while (i < left && at[i] != 10)
        i++;
    return i;
}

/* Which digit of the base a byte is; the base where it is none. */
static unsigned digit(uint8_t byte, unsigned base) {
    unsigned d = 0;
    while (d < base && (uint8_t) "0123456789abcdef"[d] != byte)
        d++;
    return d;
}

/* The number that these bytes say, or 100 where they are no count. */
static size_t count_in(const uint8_t *at, size_t len) {
    unsigned high = 0, low;
    if (len < 1 || len > 2)
        return 100;
    low = digit(at[len - 1], 10);
    if (len == 2) {
        high = digit(at[0], 10);
        if (high == 0)
            return 100;
    }
    return high == 10 || low == 10 ? 100 : 10 * high + low;
}

/* Whether these bytes are so many entries; what they say. */
static int read_entries(const uint8_t *at, size_t len, size_t count, uint32_t *entry) {
    size_t i;
    if (len != 9 * count - 1)
        return 0;
    memset(entry, 0, count * sizeof *entry);
    for (i = 0; i < len; i++) {
        if (i % 9 == 8) {
            if (at[i] != ',')
                return 0;
            continue;
        }
        if (digit(at[i], 16) == 16)
            return 0;
        entry[i / 9] = entry[i / 9] * 16 + digit(at[i], 16);
    }
    return 1;
}

size_t model_read(const uint8_t *card, size_t len, struct settings *found) {
    size_t k, count;
    for (k = 0; k < LINES; k++) {
        size_t line = line_length(card, len), key = strlen(keys[k]);
        if (line == len || line < key || memcmp(card, keys[k], key) != 0)
            return 501 + k;
        if (k < 3) {
            count = count_in(card + key, line - key);
            if (count == 100)
                return 501 + k;
            if (k == 0 && count != 1)
                return 600;
            if (k > 0 && (count < 1 || count > 16))
                return 99 + k;
            *(k < 2 ? &found->n : &found->m) = count;
        } else if (!read_entries(card + key, line - key, entries_of(found, k - 3),
                                 found->entry[k - 3])) {
            return 501 + k;
        }
        card += line + 1;
        len -= line + 1;
    }
    return len > 0 ? 508 : 0;
}
