#include "../../include/yurgamysh.h"

#include "card_model.h"
#include "card_texts.h"
#include "cards.h"
#include "inputs.h"
#include "room.h"

#include <stdio.h>
#include <string.h>

/* The rooms that are lent: the four matrices first. */
enum { STATES = MATRICES, OBSERVATIONS, CARD, ROOMS };
enum { SIZE_FLOATS = sizeof(size_t) / sizeof(float), BEFORE_CARD = 32 };

struct lent_card {
    const uint8_t *card;
    size_t card_len;
    struct lent buffer[MATRICES];
};

static unsigned long calls, numbers, failures;
/* Which codes were given. */
static char seen[1000];

static void fail(const char *what) {
    if (failures++ < 3)
        printf("card_read: %s\n", what);
}

/* ---- what is lent */

/* Lends the first len bytes of a text, the others standing behind them, and buffers for the
   matrices of s, each with up to two floats past it. What lies before the card are digits; every
   float is a mark. */
static struct lent_card lend(const struct settings *s, const struct text *t, size_t len) {
    uint8_t *card = (uint8_t *)(void *)room_end(CARD) - t->len;
    struct lent_card c;
    size_t k;
    memset(card - BEFORE_CARD, '0', BEFORE_CARD);
    memcpy(card, t->at, t->len);
    c.card = card;
    c.card_len = len;
    for (k = 0; k < CARD; k++)
        room_mark(k);
    for (k = 0; k < MATRICES; k++) {
        c.buffer[k].len = entries_of(s, k) + draw() % 3;
        c.buffer[k].at = room_end(k) - c.buffer[k].len;
    }
    return c;
}

/* The code by the rules, and in copies of the rooms what a card that is taken leaves there. */
static size_t by_the_rules(const struct lent_card *c, struct settings *found,
                           float rooms[][ROOM_FLOATS]) {
    size_t k, code = model_read(c->card, c->card_len, found);
    for (k = 0; k < MATRICES && code == 0; k++)
        if (c->buffer[k].len < entries_of(found, k))
            code = 200 + k;
    if (code != 0)
        return code;
    for (k = 0; k < MATRICES; k++)
        memcpy(rooms[k] + ROOM_FLOATS - c->buffer[k].len, found->entry[k],
               entries_of(found, k) * sizeof(float));
    memcpy(rooms[STATES] + ROOM_FLOATS - SIZE_FLOATS, &found->n, sizeof found->n);
    memcpy(rooms[OBSERVATIONS] + ROOM_FLOATS - SIZE_FLOATS, &found->m, sizeof found->m);
    return 0;
}

/* Holds room k to what it should hold: in a matrix that was written any NaN will do for a NaN. */
static void compare(size_t k, size_t code, size_t start, size_t end, const float *wanted_in) {
    const float *found_in = room_end(k) - ROOM_FLOATS;
    char what[200];
    size_t i;
    numbers += ROOM_FLOATS;
    if (memcmp(found_in, wanted_in, ROOM_FLOATS * sizeof(float)) == 0)
        return;
    for (i = 0; i < ROOM_FLOATS; i++) {
        uint32_t found = bits_of(found_in[i]), wanted = bits_of(wanted_in[i]);
        if (found == wanted || (i >= start && i < end && is_nan_bits(found) && is_nan_bits(wanted)))
            continue;
        sprintf(what, "code %lu, room %lu, cell -%lu: %08lx, expected %08lx", (unsigned long)code,
                (unsigned long)k, (unsigned long)(ROOM_FLOATS - i), (unsigned long)found,
                (unsigned long)wanted);
        fail(what);
        return;
    }
}

/* Makes the call, and holds its answer, every number in the rooms and every byte of the card to the
   rules. */
static size_t make(const struct lent_card *c) {
    static float wanted_in[CARD][ROOM_FLOATS];
    static struct text before;
    const struct lent *b = c->buffer;
    struct settings found;
    size_t k, code, want;
    char what[200];
    for (k = 0; k < CARD; k++)
        memcpy(wanted_in[k], room_end(k) - ROOM_FLOATS, sizeof wanted_in[k]);
    if (c->card_len > 0)
        memcpy(before.at, c->card, c->card_len);
    want = by_the_rules(c, &found, wanted_in);
    code = yurgamysh_card_read(c->card, c->card_len, b[0].at, b[0].len, b[1].at, b[1].len, b[2].at,
                               b[2].len, b[3].at, b[3].len,
                               (size_t *)(void *)(room_end(STATES) - SIZE_FLOATS),
                               (size_t *)(void *)(room_end(OBSERVATIONS) - SIZE_FLOATS));
    calls++;
    if (code < sizeof seen)
        seen[code] = 1;
    if (code != want) {
        sprintf(what, "%lu bytes: answers %lu, expected %lu", (unsigned long)c->card_len,
                (unsigned long)code, (unsigned long)want);
        fail(what);
    }
    if (yurgamysh_answer_of(code) != (enum yurgamysh_answer)(code / 100) ||
        yurgamysh_carried_by(code) != code % 100)
        fail("the header takes the code apart wrongly");
    for (k = 0; k < CARD; k++) {
        size_t start = k < MATRICES ? ROOM_FLOATS - c->buffer[k].len : 0;
        compare(k, code, start, want == 0 && k < MATRICES ? start + entries_of(&found, k) : start,
                wanted_in[k]);
    }
    if (c->card_len > 0 && memcmp(before.at, c->card, c->card_len) != 0)
        fail("the card was written");
    return code;
}

/* The text, with buffers that fit s, is answered with this code. */
static void expect(const struct settings *s, const struct text *t, size_t code) {
    struct lent_card c = lend(s, t, t->len);
    char what[80];
    size_t found = make(&c);
    if (found != code) {
        sprintf(what, "a text was made for the code %lu and answered %lu", (unsigned long)code,
                (unsigned long)found);
        fail(what);
    }
}

/* ---- the calls */

/* Every pair of sizes. */
static void every_size(void) {
    static struct text t;
    size_t n, m, round;
    for (n = 1; n <= 16; n++)
        for (m = 1; m <= 16; m++)
            for (round = 0; round < 3; round++) {
                struct settings s = draw_settings(n, m);
                model_spell(&s, &t);
                expect(&s, &t, 0);
            }
}

/* Every digit in every place of an entry. */
static void every_digit(void) {
    static struct text t;
    size_t k, shift;
    uint32_t d;
    for (k = 0; k < MATRICES; k++)
        for (shift = 0; shift < 32; shift += 4)
            for (d = 0; d < 16; d++) {
                struct settings s = draw_settings(1, 1);
                s.entry[k][0] = (s.entry[k][0] & ~((uint32_t)15 << shift)) | d << shift;
                model_spell(&s, &t);
                expect(&s, &t, 0);
            }
}

/* Every byte in the place of each of a card, and one taken away. */
static void every_byte(void) {
    static struct text t, edited;
    size_t round, i, byte;
    for (round = 0; round < 2; round++) {
        struct settings s = few(round, &t);
        for (i = 0; i < t.len; i++) {
            struct lent_card c;
            edited = t;
            for (byte = 0; byte < 256; byte++) {
                edited.at[i] = (uint8_t)byte;
                c = lend(&s, &edited, edited.len);
                make(&c);
            }
            edited = t;
            replace_bytes(&edited, i, i + 1, "", 0);
            c = lend(&s, &edited, edited.len);
            make(&c);
        }
    }
}

/* One byte more, in each place. Behind the last newline every byte is refused. */
static void surplus_bytes(void) {
    static struct text t, edited;
    static const char tried[] = "019afAFgx=:,;.+- \t\r\n\0\xff";
    size_t round, i, k;
    for (round = 0; round < 4; round++) {
        struct settings s = few(round, &t);
        for (i = 0; i < t.len; i++)
            for (k = 0; k < sizeof tried; k++) {
                struct lent_card c;
                edited = t;
                replace_bytes(&edited, i, i, &tried[k], 1);
                c = lend(&s, &edited, edited.len);
                make(&c);
            }
        edited = t;
        edited.len++;
        for (k = 0; k < 256; k++) {
            edited.at[t.len] = (uint8_t)k;
            expect(&s, &edited, 508);
        }
        add_line(&t, &t, 7);
        expect(&s, &t, 508);
    }
}

/* Every beginning of a card, with nobody's page behind it and with the rest of the card there. The
   line that lacks its newline is told. */
static void every_beginning(void) {
    static struct text t;
    size_t round, len, line;
    for (round = 0; round < 8; round++) {
        struct settings s = round < 7 ? few(round, &t) : draw_settings(16, 16);
        model_spell(&s, &t);
        for (line = 1, len = 0; len < t.len; len++) {
            struct lent_card c = lend(&s, &t, len);
            struct text cut = t;
            if (make(&c) != 500 + line)
                fail("a beginning was not refused by its last line");
            cut.len = len;
            expect(&s, &cut, 500 + line);
            line += t.at[len] == '\n';
        }
    }
}

/* Lines that are swapped, left out, and there twice: the first in a wrong place is told. */
static void moved_lines(void) {
    static struct text t, edited;
    size_t round, i, j, k;
    for (round = 0; round < 7; round++) {
        struct settings s = few(round, &t);
        for (i = 1; i <= LINES; i++) {
            for (j = i + 1; j <= LINES; j++) {
                for (edited.len = 0, k = 1; k <= LINES; k++)
                    add_line(&edited, &t, k == i ? j : k == j ? i : k);
                expect(&s, &edited, 500 + i);
            }
            for (edited.len = 0, k = 1; k <= LINES; k++)
                if (k != i)
                    add_line(&edited, &t, k);
            expect(&s, &edited, 500 + i);
            for (edited.len = 0, k = 1; k <= LINES; k++) {
                add_line(&edited, &t, k);
                if (k == i)
                    add_line(&edited, &t, k);
            }
            expect(&s, &edited, 501 + i);
        }
    }
}

/* Two lines that are wrong, with what is right between them: the upper one is told. */
static void two_wrong_lines(void) {
    static struct text t, edited;
    size_t round, i, j;
    for (round = 0; round < 7; round++) {
        struct settings s = few(round, &t);
        for (i = 1; i <= LINES; i++)
            for (j = i; j <= LINES; j++) {
                edited = t;
                edited.at[line_start(&t, j + 1) - 2] = 'x';
                edited.at[line_start(&t, i)] ^= 32;
                expect(&s, &edited, 500 + i);
                edited = t;
                edited.at[line_start(&t, i + 1) - 2] = ' ';
                edited.at[line_start(&t, j)] ^= 32;
                expect(&s, &edited, 500 + i);
            }
    }
}

/* The code of a count in line k: of its form, and then of what it says. 0 where it is taken. */
static size_t code_of_count(size_t k, int is_count, size_t count) {
    if (!is_count)
        return 500 + k;
    if (k == 1)
        return count == 1 ? 0 : 600;
    return count >= 1 && count <= 16 ? 0 : 98 + k;
}

/* A value in line k of a card, the card going on behind it, going on with wrong lines, and ending
   there: what is refused is refused by this line each time. */
static void expect_count(size_t k, const char *value, size_t count, size_t code) {
    static struct text t, edited;
    struct settings s = few(draw(), &t);
    set_value(&t, k, value, count);
    if (code == 0) {
        struct lent_card c = lend(&s, &t, t.len);
        make(&c);
        return;
    }
    expect(&s, &t, code);
    edited = t;
    replace_bytes(&edited, line_start(&t, k + 1), t.len, "\n\n", 2);
    expect(&s, &edited, code);
    edited = t;
    edited.len = line_start(&t, k + 1);
    expect(&s, &edited, code);
    /* without its newline it is no line, whatever it says */
    edited.len--;
    expect(&s, &edited, 500 + k);
}

/* Every count of one digit and of two, and values that are none. */
static void every_count(void) {
    static const char *const others[] = {"",
                                         "001",
                                         "016",
                                         "100",
                                         "1 ",
                                         " 1",
                                         "+1",
                                         "-1",
                                         "1.",
                                         "1\r",
                                         "1,",
                                         "1a",
                                         "a",
                                         "0x1",
                                         "\xef\xbc\x91",
                                         "1=",
                                         "/",
                                         ":",
                                         "1/",
                                         "1:",
                                         "/1",
                                         ":1",
                                         "=1",
                                         "1\t",
                                         "257",
                                         "272",
                                         "65537",
                                         "4294967297",
                                         "18446744073709551617"};
    size_t k, i, high, low;
    for (k = 1; k <= 3; k++) {
        for (low = 0; low < 10; low++) {
            char digits[2];
            digits[1] = (char)('0' + low);
            expect_count(k, &digits[1], 1, code_of_count(k, 1, low));
            for (high = 0; high < 10; high++) {
                digits[0] = (char)('0' + high);
                expect_count(k, digits, 2, code_of_count(k, high > 0, 10 * high + low));
            }
        }
        for (i = 0; i < sizeof others / sizeof others[0]; i++)
            expect_count(k, others[i], strlen(others[i]), code_of_count(k, 0, 0));
    }
}

/* Each line of entries with one more, one less and none, and with one moved to the line below. */
static void other_numbers_of_entries(void) {
    static struct text t, edited;
    size_t round, k;
    for (round = 0; round < 7; round++) {
        struct settings s = few(round, &t);
        for (k = 4; k <= LINES; k++) {
            size_t end = line_start(&t, k + 1) - 1;
            edited = t;
            replace_bytes(&edited, end, end, ",3f800000", 9);
            expect(&s, &edited, 500 + k);
            if (entries_of(&s, k - 4) > 1) {
                edited = t;
                replace_bytes(&edited, end - 9, end, "", 0);
                expect(&s, &edited, 500 + k);
                if (k < LINES) {
                    replace_bytes(&edited, end - 6, end - 6, "3f800000,", 9);
                    expect(&s, &edited, 500 + k);
                }
            }
            edited = t;
            set_value(&edited, k, "", 0);
            expect(&s, &edited, 500 + k);
        }
    }
}

/* Lends nothing: a null pointer and a length of 0. */
static void take_away(struct lent_card *c, size_t k) {
    c->buffer[k].at = NULL;
    c->buffer[k].len = 0;
}

/* Each buffer a number short, empty and null, alone and with those after it. A wrong card is told
   first, whatever the buffers. */
static void short_buffers(void) {
    static struct text t;
    size_t round, k, j, how;
    for (round = 0; round < 60; round++)
        for (k = 0; k < MATRICES; k++)
            for (how = 0; how < 5; how++) {
                size_t n = round == 0 ? 1 : round == 1 ? 16 : 1 + draw() % 16;
                size_t m = round == 0 ? 1 : round == 1 ? 16 : 1 + draw() % 16;
                struct settings s = draw_settings(n, m);
                struct lent_card c;
                model_spell(&s, &t);
                c = lend(&s, &t, t.len);
                if (how == 0) {
                    c.buffer[k].len = entries_of(&s, k) - 1;
                    c.buffer[k].at = room_end(k) - c.buffer[k].len;
                } else if (how == 1) {
                    c.buffer[k].at += c.buffer[k].len;
                    c.buffer[k].len = 0;
                } else if (how == 2) {
                    take_away(&c, k);
                } else {
                    for (j = k; j < MATRICES; j++)
                        take_away(&c, j);
                    c.card_len -= how == 4;
                }
                if (make(&c) != (how == 4 ? 507 : 200 + k))
                    fail("a short buffer was not refused as it should be");
            }
}

/* No card: no bytes, with and without a pointer, and with and without buffers. */
static void no_card(void) {
    struct settings s = draw_settings(1, 1);
    struct text none;
    size_t null, k;
    none.len = 0;
    for (null = 0; null < 4; null++) {
        struct lent_card c = lend(&s, &none, 0);
        if (null & 1)
            c.card = NULL;
        for (k = 0; k < MATRICES && null & 2; k++)
            take_away(&c, k);
        if (make(&c) != 501)
            fail("no card was not refused by line 1");
    }
}

/* Each code that the function has was given, and no other. */
static void all_codes_seen(void) {
    size_t code;
    for (code = 0; code < sizeof seen; code++)
        if (seen[code] != (code == 0 || code == 100 || code == 101 || (code >= 200 && code < 204) ||
                           (code > 500 && code < 509) || code == 600))
            fail("a code was never given, or is none of the function's");
}

unsigned long run_cards(unsigned long *calls_made, unsigned long *numbers_compared) {
    every_size();
    every_digit();
    every_byte();
    surplus_bytes();
    every_beginning();
    moved_lines();
    two_wrong_lines();
    every_count();
    other_numbers_of_entries();
    short_buffers();
    no_card();
    all_codes_seen();
    *calls_made += calls;
    *numbers_compared += numbers;
    return failures;
}
