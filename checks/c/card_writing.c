#include "../../include/yurgamysh.h"

#include "card_model.h"
#include "card_texts.h"
#include "card_writing.h"
#include "inputs.h"
#include "room.h"

#include <stdio.h>
#include <string.h>

/* The rooms that are lent: the four matrices first. */
enum { LENGTH = MATRICES, CARD };
/* The buffers of a call, as they are counted: the bytes are the last. */
enum { BYTES = MATRICES, BUFFERS };
enum { SIZE_FLOATS = sizeof(size_t) / sizeof(float) };

/* A call: what it is to write, from which buffers and into which bytes. */
struct writing {
    struct settings s;
    struct lent buffer[MATRICES];
    uint8_t *card;
    size_t card_len;
};

/* Sizes that are refused; of some the square is a small number, if it is not seen that it is too
   large. */
static const size_t bad_size[] = {0,
                                  17,
                                  18,
                                  25,
                                  99,
                                  100,
                                  255,
                                  256,
                                  257,
                                  65536,
                                  65537,
                                  (size_t)1 << 32,
                                  ((size_t)1 << 32) + 1,
                                  ((size_t)-1 >> 1) + 1,
                                  ((size_t)-1 >> 1) + 2,
                                  (size_t)-15,
                                  (size_t)-1};
enum { BAD_SIZES = sizeof bad_size / sizeof bad_size[0] };

static unsigned long calls, numbers, failures;
/* Which codes were given, by the writer and for a length. */
static char written[1000], measured[1000];

/* Which function was called last. */
static const char *called;

static void fail(const char *what) {
    if (failures++ < 3)
        printf("%s: %s\n", called, what);
}

/* ---- what is lent */

static uint8_t *bytes_end(void) { return (uint8_t *)(void *)room_end(CARD); }
static size_t *lent_length(void) { return (size_t *)(void *)(room_end(LENGTH) - SIZE_FLOATS); }

/* What stands in the bytes before a call: drawn once, and taken from another place each time. */
static uint8_t noise[ROOM_BYTES + 256];

static void draw_noise(void) {
    size_t i;
    for (i = 0; i < sizeof noise; i++)
        noise[i] = (uint8_t)draw();
}

/* The lengths that just do. */
static void exact(const struct settings *s, size_t *lengths) {
    size_t k;
    for (k = 0; k < MATRICES; k++)
        lengths[k] = entries_of(s, k);
    lengths[BYTES] = model_length(s->n, s->m);
}

/* Lends buffers of these lengths, the matrices of s in their fronts as far as they go. Every other
   float is a mark, and every byte drawn. */
static struct writing lend(const struct settings *s, const size_t *lengths) {
    struct writing c;
    size_t k;
    c.s = *s;
    for (k = 0; k < MATRICES; k++) {
        size_t held = lengths[k] < entries_of(s, k) ? lengths[k] : entries_of(s, k);
        room_mark(k);
        c.buffer[k].len = lengths[k];
        c.buffer[k].at = room_end(k) - lengths[k];
        memcpy(c.buffer[k].at, s->entry[k], held * sizeof(float));
    }
    room_mark(LENGTH);
    memcpy(bytes_end() - ROOM_BYTES, noise + draw() % 256, ROOM_BYTES);
    c.card_len = lengths[BYTES];
    c.card = bytes_end() - lengths[BYTES];
    return c;
}

/* Lends nothing: a null pointer and a length of 0. */
static void take_away(struct writing *c, size_t k) {
    if (k == BYTES) {
        c->card = NULL;
        c->card_len = 0;
    } else {
        c->buffer[k].at = NULL;
        c->buffer[k].len = 0;
    }
}

/* ---- a call */

/* Holds room k to what it should hold, bit for bit. */
static void compare_room(size_t k, size_t code, const float *wanted_in) {
    const float *found_in = room_end(k) - ROOM_FLOATS;
    char what[200];
    size_t i = 0;
    numbers += ROOM_FLOATS;
    if (memcmp(found_in, wanted_in, ROOM_FLOATS * sizeof(float)) == 0)
        return;
    while (bits_of(found_in[i]) == bits_of(wanted_in[i]))
        i++;
    sprintf(what, "code %lu, room %lu, cell -%lu: %08lx, expected %08lx", (unsigned long)code,
            (unsigned long)k, (unsigned long)(ROOM_FLOATS - i), (unsigned long)bits_of(found_in[i]),
            (unsigned long)bits_of(wanted_in[i]));
    fail(what);
}

/* Holds every byte, those before the lent ones too, to what it should be. */
static void compare_bytes(const struct writing *c, size_t code, const uint8_t *wanted_in) {
    const uint8_t *found_in = bytes_end() - ROOM_BYTES;
    char what[200];
    size_t i = 0;
    numbers += c->card_len;
    if (memcmp(found_in, wanted_in, ROOM_BYTES) == 0)
        return;
    while (found_in[i] == wanted_in[i])
        i++;
    sprintf(what, "code %lu, byte %ld of %lu: %02x, expected %02x", (unsigned long)code,
            (long)i - (long)(ROOM_BYTES - c->card_len), (unsigned long)c->card_len,
            (unsigned)found_in[i], (unsigned)wanted_in[i]);
    fail(what);
}

/* Holds a code to the one that the rules give. */
static void compare_codes(size_t n, size_t m, size_t code, size_t want) {
    char what[200];
    if (code != want) {
        sprintf(what, "%lu states, %lu observations: answers %lu, expected %lu", (unsigned long)n,
                (unsigned long)m, (unsigned long)code, (unsigned long)want);
        fail(what);
    }
    if (yurgamysh_answer_of(code) != (enum yurgamysh_answer)(code / 100) ||
        yurgamysh_carried_by(code) != code % 100)
        fail("the header takes the code apart wrongly");
}

/* Makes the call, and holds its answer, every number in the rooms and every byte to the rules. */
static size_t make(const struct writing *c) {
    static float wanted_in[CARD][ROOM_FLOATS];
    static uint8_t wanted_bytes[ROOM_BYTES];
    static struct text card;
    const struct lent *b = c->buffer;
    size_t k, code, want, lengths[BUFFERS];
    for (k = 0; k < CARD; k++)
        memcpy(wanted_in[k], room_end(k) - ROOM_FLOATS, sizeof wanted_in[k]);
    memcpy(wanted_bytes, bytes_end() - ROOM_BYTES, ROOM_BYTES);
    for (k = 0; k < MATRICES; k++)
        lengths[k] = b[k].len;
    lengths[BYTES] = c->card_len;
    want = model_write(&c->s, lengths, &card);
    if (want == 0) {
        memcpy(wanted_bytes + ROOM_BYTES - c->card_len, card.at, card.len);
        memcpy(wanted_in[LENGTH] + ROOM_FLOATS - SIZE_FLOATS, &card.len, sizeof card.len);
    }
    called = "card_write";
    code = yurgamysh_card_write(c->s.n, c->s.m, b[0].at, b[0].len, b[1].at, b[1].len, b[2].at,
                                b[2].len, b[3].at, b[3].len, c->card, c->card_len, lent_length());
    calls++;
    if (code < sizeof written)
        written[code] = 1;
    compare_codes(c->s.n, c->s.m, code, want);
    for (k = 0; k < CARD; k++)
        compare_room(k, code, wanted_in[k]);
    compare_bytes(c, code, wanted_bytes);
    return code;
}

/* The call is made for this code. */
static void expect(const struct writing *c, size_t code) {
    if (make(c) != code)
        fail("a call was made for another code");
}

/* Asks how long a card is, and holds the answer and every number in the room to the rules. */
static void ask(size_t n, size_t m) {
    float wanted_in[ROOM_FLOATS];
    size_t code, length, want = n < 1 || n > 16 ? 100 : m < 1 || m > 16 ? 101 : 0;
    room_mark(LENGTH);
    memcpy(wanted_in, room_end(LENGTH) - ROOM_FLOATS, sizeof wanted_in);
    if (want == 0) {
        length = model_length(n, m);
        memcpy(wanted_in + ROOM_FLOATS - SIZE_FLOATS, &length, sizeof length);
    }
    called = "card_length";
    code = yurgamysh_card_length(n, m, lent_length());
    calls++;
    if (code < sizeof measured)
        measured[code] = 1;
    compare_codes(n, m, code, want);
    compare_room(LENGTH, code, wanted_in);
}

/* ---- both ways */

/* Reads a text and writes what was read: the same sizes and numbers, and the card that this is. */
static void read_and_write(const struct settings *s, const uint8_t *text, size_t len,
                           const struct text *card) {
    static float found[MATRICES][YURGAMYSH_MAX_CELLS];
    static uint8_t again[YURGAMYSH_MAX_CARD];
    size_t k, i, n = 0, m = 0, length = 0, cells = YURGAMYSH_MAX_CELLS;
    calls += 2;
    if (yurgamysh_card_read(text, len, found[0], cells, found[1], cells, found[2], cells, found[3],
                            cells, &n, &m) != 0 ||
        n != s->n || m != s->m) {
        fail("a card is not taken, or has other sizes");
        return;
    }
    for (k = 0; k < MATRICES; k++)
        for (i = 0; i < entries_of(s, k); i++) {
            uint32_t bits = bits_of(found[k][i]);
            if (bits != s->entry[k][i] && !(is_nan_bits(bits) && is_nan_bits(s->entry[k][i])))
                fail("another number is read back");
        }
    if (yurgamysh_card_write(n, m, found[0], cells, found[1], cells, found[2], cells, found[3],
                             cells, again, sizeof again, &length) != 0 ||
        length != card->len || memcmp(again, card->at, length) != 0)
        fail("what was read is not written again as it should be");
}

/* What was written is taken, and gives back both sizes and the same numbers, which give the same
   bytes. The card with the patterns as they are gives these bytes as well. */
static void both_ways(const struct writing *c) {
    static struct text plain, card;
    struct settings quiet = model_quiet(&c->s);
    model_spell(&c->s, &plain);
    model_spell(&quiet, &card);
    if (*lent_length() == card.len)
        read_and_write(&c->s, c->card, card.len, &card);
    read_and_write(&c->s, card.at, card.len, &card);
    read_and_write(&c->s, plain.at, plain.len, &card);
}

/* ---- the calls */

/* Every pair of sizes: with buffers and bytes that just do, and then with more of each. */
static void every_size(void) {
    static const size_t more[] = {0, 0, 1, 2, 300};
    size_t n, m, k, round, lengths[BUFFERS];
    for (n = 1; n <= 16; n++)
        for (m = 1; m <= 16; m++)
            for (round = 0; round < sizeof more / sizeof more[0]; round++) {
                struct settings s = draw_settings(n, m);
                struct writing c;
                exact(&s, lengths);
                for (k = 0; k < MATRICES && round > 0; k++)
                    lengths[k] += round == 1 ? 1 : draw() % 3;
                lengths[BYTES] += more[round];
                c = lend(&s, lengths);
                expect(&c, 0);
                both_ways(&c);
            }
}

/* A card whose four matrices are one buffer. */
static void one_buffer(void) {
    size_t n, k, lengths[BUFFERS];
    for (n = 1; n <= 16; n++) {
        struct settings s = draw_settings(n, n);
        struct writing c;
        for (k = 1; k < MATRICES; k++)
            memcpy(s.entry[k], s.entry[0], sizeof s.entry[0]);
        exact(&s, lengths);
        c = lend(&s, lengths);
        for (k = 1; k < MATRICES; k++)
            c.buffer[k].at = c.buffer[0].at;
        expect(&c, 0);
    }
}

/* Every digit in every place of an entry. */
static void every_digit(void) {
    size_t k, shift, lengths[BUFFERS];
    uint32_t d;
    for (k = 0; k < MATRICES; k++)
        for (shift = 0; shift < 32; shift += 4)
            for (d = 0; d < 16; d++) {
                struct settings s = draw_settings(1, 1);
                struct writing c;
                s.entry[k][0] = (s.entry[k][0] & ~((uint32_t)15 << shift)) | d << shift;
                exact(&s, lengths);
                c = lend(&s, lengths);
                expect(&c, 0);
            }
}

/* Floats of both signs and every exponent: zeros, subnormals, infinities and NaN among them, quiet
   and signalling. In each of the four matrices. */
static void every_exponent(void) {
    static const uint32_t fractions[] = {0,         1,         0x2aaaaau, 0x3fffffu,
                                         0x400000u, 0x400001u, 0x555555u, 0x7fffffu};
    size_t round, turn, k, i, lengths[BUFFERS];
    for (round = 0; round < 4; round++)
        for (turn = 0; turn < MATRICES; turn++) {
            struct settings s = draw_settings(16, 16);
            struct writing c;
            for (k = 0; k < MATRICES; k++)
                for (i = 0; i < YURGAMYSH_MAX_CELLS; i++) {
                    uint32_t exponent = (uint32_t)i, kind = (uint32_t)(4 * round + k);
                    s.entry[(k + turn) % MATRICES][i] =
                        (kind & 1) << 31 | exponent << 23 | fractions[kind / 2];
                }
            exact(&s, lengths);
            c = lend(&s, lengths);
            expect(&c, 0);
            both_ways(&c);
        }
}

/* NaN with each bit of the fraction alone, and with each but one: all of them are written alike. */
static void every_nan(void) {
    size_t k, sign, bit, lengths[BUFFERS];
    for (k = 0; k < MATRICES; k++)
        for (sign = 0; sign < 2; sign++)
            for (bit = 0; bit < 46; bit++) {
                struct settings s = draw_settings(2, 3);
                uint32_t fraction = (uint32_t)1 << bit % 23;
                struct writing c;
                if (bit >= 23)
                    fraction ^= 0x7fffffu;
                s.entry[k][draw() % entries_of(&s, k)] =
                    (uint32_t)sign << 31 | 0x7f800000u | fraction;
                exact(&s, lengths);
                c = lend(&s, lengths);
                expect(&c, 0);
            }
}

/* Each size out of range, with much lent; with the other one wrong too; and with what is tested
   after it: short buffers, and none. */
static void bad_sizes(void) {
    size_t round, i, k, j, lengths[BUFFERS];
    for (round = 0; round < 6; round++)
        for (i = 0; i < BAD_SIZES; i++)
            for (k = 0; k < 2; k++) {
                size_t n = round == 0 ? 1 : round == 1 ? 16 : 1 + draw() % 16;
                size_t m = round == 0 ? 1 : round == 1 ? 16 : 1 + draw() % 16;
                struct settings s = draw_settings(n, m);
                struct writing c;
                for (j = 0; j < MATRICES; j++)
                    lengths[j] = ROOM_FLOATS;
                lengths[BYTES] = ROOM_BYTES;
                c = lend(&s, lengths);
                *(k == 0 ? &c.s.n : &c.s.m) = bad_size[i];
                expect(&c, 100 + k);
                if (k == 0) {
                    c.s.m = bad_size[draw() % BAD_SIZES];
                    expect(&c, 100);
                }
                for (j = BUFFERS; j-- > 0;) {
                    take_away(&c, j);
                    expect(&c, 100 + k);
                }
            }
}

/* Each buffer one short, at every pair of sizes, and each two of them: the first is told. */
static void one_short(void) {
    size_t n, m, i, j, lengths[BUFFERS];
    for (n = 1; n <= 16; n++)
        for (m = 1; m <= 16; m++)
            for (i = 0; i < BUFFERS; i++)
                for (j = i; j < BUFFERS; j++) {
                    struct settings s = draw_settings(n, m);
                    struct writing c;
                    exact(&s, lengths);
                    lengths[i]--;
                    if (j > i)
                        lengths[j]--;
                    c = lend(&s, lengths);
                    expect(&c, 200 + i);
                }
}

/* Each buffer empty and null, alone and with those after it. */
static void no_buffers(void) {
    size_t round, k, j, how, lengths[BUFFERS];
    for (round = 0; round < 16; round++)
        for (k = 0; k < BUFFERS; k++)
            for (how = 0; how < 3; how++) {
                struct settings s = draw_settings(1 + round, 1 + round * 7 % 16);
                struct writing c;
                exact(&s, lengths);
                if (how == 0)
                    lengths[k] = 0;
                c = lend(&s, lengths);
                for (j = k; j < BUFFERS && how > 0; j++)
                    if (j == k || how == 2)
                        take_away(&c, j);
                expect(&c, 200 + k);
            }
}

/* Every number of bytes up to two more than the card has: they do from its length on. */
static void every_number_of_bytes(void) {
    static struct text t;
    size_t round, lengths[BUFFERS];
    for (round = 0; round < 7; round++) {
        struct settings s = few(round, &t);
        struct writing c;
        exact(&s, lengths);
        for (lengths[BYTES] = 0; lengths[BYTES] <= t.len + 2; lengths[BYTES]++) {
            c = lend(&s, lengths);
            expect(&c, lengths[BYTES] < t.len ? 204 : 0);
        }
    }
}

/* Every length, and sizes that have none. No card is longer than the header says. */
static void every_length(void) {
    static struct text t;
    size_t n, m, i, most = 0;
    for (n = 0; n <= 17; n++)
        for (m = 0; m <= 17; m++)
            ask(n, m);
    for (i = 0; i < BAD_SIZES; i++) {
        for (n = 0; n <= 17; n++) {
            ask(bad_size[i], n);
            ask(n, bad_size[i]);
        }
        for (n = 0; n < BAD_SIZES; n++)
            ask(bad_size[i], bad_size[n]);
    }
    for (n = 1; n <= 16; n++)
        for (m = 1; m <= 16; m++) {
            struct settings s = draw_settings(n, m);
            model_spell(&s, &t);
            if (t.len != model_length(n, m))
                fail("a card is not as long as the rules say");
            most = t.len > most ? t.len : most;
        }
    if (most != YURGAMYSH_MAX_CARD)
        fail("YURGAMYSH_MAX_CARD is not the longest card's length");
}

/* Each code that the two functions have was given, and no other. */
static void all_codes_seen(void) {
    size_t code;
    for (code = 0; code < sizeof written; code++) {
        int by_size = code == 0 || code == 100 || code == 101;
        if (measured[code] != by_size ||
            written[code] != (by_size || (code >= 200 && code < 200 + BUFFERS)))
            fail("a code was never given, or is none of the function's");
    }
}

unsigned long run_card_writing(unsigned long *calls_made, unsigned long *numbers_compared) {
    draw_noise();
    every_length();
    every_size();
    one_buffer();
    every_digit();
    every_exponent();
    every_nan();
    bad_sizes();
    one_short();
    no_buffers();
    every_number_of_bytes();
    all_codes_seen();
    *calls_made += calls;
    *numbers_compared += numbers;
    return failures;
}
