#include "card_texts.h"

#include "inputs.h"

#include <string.h>

struct settings draw_settings(size_t n, size_t m) {
    static const uint32_t special[] = {0,           0x80000000u, 1,           0x007fffffu,
                                       0x00800000u, 0x3f800000u, 0x7f7fffffu, 0x7f800000u,
                                       0xff800000u, 0x7fc00000u, 0x7f800001u, 0xffffffffu};
    struct settings s;
    size_t k, i;
    s.n = n;
    s.m = m;
    for (k = 0; k < MATRICES; k++)
        for (i = 0; i < entries_of(&s, k); i++)
            s.entry[k][i] =
                draw() % 3 ? draw() : special[draw() % (sizeof special / sizeof special[0])];
    return s;
}

struct settings few(size_t round, struct text *t) {
    static const size_t sizes[][2] = {{2, 1}, {1, 2}, {1, 1}, {2, 2}, {3, 2}, {1, 10}, {12, 1}};
    const size_t *pair = sizes[round % (sizeof sizes / sizeof sizes[0])];
    struct settings s = draw_settings(pair[0], pair[1]);
    model_spell(&s, t);
    return s;
}

size_t line_start(const struct text *t, size_t k) {
    size_t i = 0;
    while (k > 1)
        if (t->at[i++] == '\n')
            k--;
    return i;
}

void replace_bytes(struct text *t, size_t from, size_t to, const void *bytes, size_t count) {
    memmove(t->at + from + count, t->at + to, t->len - to);
    memcpy(t->at + from, bytes, count);
    t->len += count - (to - from);
}

void set_value(struct text *t, size_t k, const char *value, size_t count) {
    size_t from = line_start(t, k);
    while (t->at[from++] != '=')
        continue;
    replace_bytes(t, from, line_start(t, k + 1) - 1, value, count);
}

void add_line(struct text *to, const struct text *t, size_t k) {
    size_t from = line_start(t, k), count = line_start(t, k + 1) - from;
    memcpy(to->at + to->len, t->at + from, count);
    to->len += count;
}
