/* Calls every function of include/yurgamysh.h through the archive, good input and each refusal, and
   compares the answer and every number lent with the rules (model.c): those of the matrices, those
   past them, and a marked stretch before each buffer. A row of feeders is compared so with the
   calls of one record (feeders.c), and a settings card with the rules of cards (cards.c for the
   reader, card_writing.c for the writer). Compiled as C and as C++.

   Prints the first differences and a line of counts; exits with 1 where anything differs, or where
   a function was not seen to give each of its answers. */
#include "../../include/yurgamysh.h"

#include "calls.h"
#include "card_writing.h"
#include "cards.h"
#include "examples.h"
#include "feeders.h"
#include "inputs.h"
#include "model.h"
#include "room.h"

#include <float.h>
#include <math.h>
#include <stdio.h>
#include <string.h>

static unsigned long calls, numbers, failures, told;
/* Which codes a function has given: seen[code]. */
static char seen[1000];
/* Which kinds of input it has refused with 9. */
static char not_finite[KINDS];

/* Tells the first three of each function. */
static void fail(const char *name, const char *what) {
    failures++;
    if (told++ < 3)
        printf("%s: %s\n", name, what);
}

/* Lends each buffer, up to `extra` floats past its matrix, filled by kind, from a marked room. */
static void lend(const struct function *f, struct call *c, enum kind kind, size_t extra) {
    size_t k, buffers = strlen(f->writes);
    for (k = 0; k < buffers; k++) {
        size_t tail = k < f->counted ? draw() % (extra + 1) : 0;
        c->buffer[k].len = cells_of(f, c, k) + tail;
        c->buffer[k].at = room_end(k) - c->buffer[k].len;
        room_mark(k);
        fill_cells(f, c, k, kind);
    }
    c->row = f->has_row ? draw() % c->size[0] : 0;
    c->column = f->has_column ? draw() % c->size[f->sizes - 1] : 0;
    c->value[0] = draw_number(kind);
    c->value[1] = draw_number(kind);
}

/* It gives x and P anew, so refusal 9 is one of its answers. */
static int corrects(const struct function *f) { return strchr(f->writes, 'k') != NULL; }

/* Whether two that differ will do in a cell that the rules have the call write: any NaN for a NaN.
   Of a record only x and p are such; in its last cell the count decides, the padding does not. */
static int agrees(const struct function *f, size_t cell, uint32_t found, uint32_t wanted) {
    if (takes_record(f) && cell == 6)
        return memcmp(&found, &wanted, 1) == 0;
    return (!takes_record(f) || cell < 2) && is_nan_bits(found) && is_nan_bits(wanted);
}

/* Makes the call, and holds its answer and every number to the rules. */
static size_t make(const struct function *f, const struct call *c) {
    static float before[MOST_BUFFERS][ROOM_FLOATS];
    struct call expected = *c;
    size_t k, i, code, want, buffers = strlen(f->writes);
    char what[200];
    for (k = 0; k < buffers; k++) {
        memcpy(before[k], room_end(k) - ROOM_FLOATS, sizeof before[k]);
        expected.buffer[k].at = before[k] + ROOM_FLOATS - c->buffer[k].len;
    }
    want = gate(f, c);
    if (want == 0)
        want = f->model(&expected);
    code = f->lib(c);
    calls++;
    if (code < sizeof seen)
        seen[code] = 1;
    if (code != want) {
        sprintf(what, "answers %lu, expected %lu", (unsigned long)code, (unsigned long)want);
        fail(f->name, what);
    }
    if (yurgamysh_answer_of(code) != (enum yurgamysh_answer)(code / 100) ||
        yurgamysh_carried_by(code) != code % 100)
        fail(f->name, "the header takes the code apart wrongly");
    for (k = 0; k < buffers; k++) {
        size_t start = ROOM_FLOATS - c->buffer[k].len;
        int written = want == 0 ? f->writes[k] != 'r' : want >= 400 && f->writes[k] == 'w';
        size_t end = written ? start + cells_of(f, c, k) : start;
        for (i = 0; i < ROOM_FLOATS; i++) {
            uint32_t found = bits_of((room_end(k) - ROOM_FLOATS)[i]),
                     wanted = bits_of(before[k][i]);
            numbers++;
            if (found == wanted)
                continue;
            if (i >= start && i < end && agrees(f, i - start, found, wanted))
                continue;
            sprintf(what, "code %lu, buffer %lu, cell %ld of %lu: %08lx, expected %08lx",
                    (unsigned long)code, (unsigned long)k, (long)i - (long)start,
                    (unsigned long)c->buffer[k].len, (unsigned long)found, (unsigned long)wanted);
            fail(f->name, what);
            break;
        }
    }
    return code;
}

/* Every size up to 16, each kind of input, with and without tails. */
static void good_input(const struct function *f) {
    size_t n, m, o, round,
        rounds = f->sizes == 0   ? 300
                 : f->sizes == 1 ? 40
                 : f->sizes == 2 ? 6
                                 : 1;
    struct call c;
    memset(&c, 0, sizeof c);
    for (n = 1; n <= (f->sizes > 0 ? 16u : 1u); n++)
        for (m = 1; m <= (f->sizes > 1 ? 16u : 1u); m++)
            for (o = 1; o <= (f->sizes > 2 ? 16u : 1u); o++)
                for (round = 0; round < rounds; round++) {
                    int kind;
                    c.size[0] = n;
                    c.size[1] = m;
                    c.size[2] = o;
                    if (f->sizes == 3) {
                        lend(f, &c, (enum kind)(draw() % KINDS), draw() % 4);
                        make(f, &c);
                        continue;
                    }
                    for (kind = 0; kind < KINDS; kind++) {
                        lend(f, &c, (enum kind)kind, round % 4);
                        if (make(f, &c) == 900)
                            not_finite[kind] = 1;
                    }
                }
}

/* A correction in which entry e, of the new x and then of P, overflows and no other does: state s
   is the only one that is seen, and has large entries of P in common with others. */
static void one_entry(const struct function *f, size_t n, size_t e) {
    size_t i = e < n ? e : (e - n) / n, j = e < n ? e : (e - n) % n, s = 0, k;
    size_t m = 1 + draw() % 16, reading = f->counted == MOST_BUFFERS ? 3 : 4;
    float *x, *p, *h, *y, *r;
    struct call c;
    memset(&c, 0, sizeof c);
    c.size[0] = n;
    c.size[1] = m;
    lend(f, &c, WHOLE, draw() % 4);
    for (k = 0; k <= 4; k++)
        memset(c.buffer[k].at, 0, cells_of(f, &c, k) * sizeof(float));
    x = c.buffer[0].at;
    p = c.buffer[1].at;
    h = c.buffer[2].at;
    /* z and R of a correction, R and y of an update */
    y = c.buffer[reading].at;
    r = c.buffer[7 - reading].at;
    while (s == i || s == j)
        s++;
    h[s] = p[s * n + s] = 1.0f;
    y[0] = 4.0f;
    for (k = 0; k < m; k++)
        r[k * m + k] = 3.0f;
    if (e < n) {
        x[i] = FLT_MAX;
        p[i * n + s] = ldexpf(1.0f, 120);
    } else {
        p[i * n + s] = p[s * n + j] = ldexpf(1.0f, 100);
    }
    if (make(f, &c) != 900)
        fail(f->name, "an entry that is not finite was taken");
}

static void each_entry(const struct function *f) {
    size_t n, e;
    if (corrects(f) && f->sizes == 2)
        for (n = 3; n <= 16; n++)
            for (e = 0; e < n + n * n; e++)
                one_entry(f, n, e);
}

/* The filter's functions, which head the table. */
static int is_filters(const struct function *f) { return f - functions < 6; }

/* The sizes that have lines of their own, often: predict and correct take these there, and the
   functions of their steps the general way. */
static void own_lines(const struct function *f) {
    static const size_t sizes[][2] = {{1, 1}, {2, 1}, {4, 2}};
    size_t i, round;
    int kind;
    struct call c;
    if (!is_filters(f))
        return;
    memset(&c, 0, sizeof c);
    for (i = 0; i < sizeof sizes / sizeof sizes[0]; i++) {
        memcpy(c.size, sizes[i], sizeof sizes[i]);
        for (round = 0; round < 300; round++)
            for (kind = 0; kind < KINDS; kind++) {
                lend(f, &c, (enum kind)kind, round % 4);
                make(f, &c);
            }
    }
}

static void good_sizes(const struct function *f, struct call *c, size_t round) {
    size_t k;
    memset(c, 0, sizeof *c);
    for (k = 0; k < f->sizes; k++)
        c->size[k] = round == 0 ? 1 : round == 1 ? 16 : 1 + draw() % 16;
}

/* Lends nothing: a null pointer and a length of 0. */
static void take_away(struct call *c, size_t k) {
    c->buffer[k].at = NULL;
    c->buffer[k].len = 0;
}

/* Makes the call and shows that it was refused by `want`. */
static void refused(const struct function *f, const struct call *c, size_t want) {
    if (gate(f, c) != want)
        fail(f->name, "the test does not ask for the refusal that it means to");
    make(f, c);
}

/* Each size out of range, alone and with what is tested after it wrong too. */
static void bad_sizes(const struct function *f, size_t round) {
    static const size_t bad[] = {0, 17, 18, 255, 65536, ((size_t)-1 >> 1) + 1, (size_t)-1};
    size_t k, i, j;
    struct call c;
    for (k = 0; k < f->sizes; k++)
        for (i = 0; i < sizeof bad / sizeof bad[0]; i++) {
            good_sizes(f, &c, round);
            lend(f, &c, round % 2 ? BAD_READING : FRACTIONS, 2);
            c.size[k] = bad[i];
            refused(f, &c, 100 + k);
            c.row = c.column = (size_t)-1;
            for (j = k; j < f->sizes; j++)
                c.size[j] = bad[i];
            for (j = 0; j < f->counted; j++)
                take_away(&c, j);
            refused(f, &c, 100 + k);
        }
}

/* Each buffer a number short, empty, and null, alone and with those after it. */
static void short_buffers(const struct function *f, size_t round) {
    size_t k, j, how;
    struct call c;
    for (k = 0; k < f->counted; k++)
        for (how = 0; how < 4; how++) {
            good_sizes(f, &c, round);
            lend(f, &c, round % 2 ? BAD_READING : FRACTIONS, 0);
            if (how == 0) {
                c.buffer[k].len -= 1;
                c.buffer[k].at += 1;
            } else if (how == 1) {
                c.buffer[k].at += c.buffer[k].len;
                c.buffer[k].len = 0;
            } else if (how == 2) {
                take_away(&c, k);
            } else {
                for (j = k; j < f->counted; j++)
                    take_away(&c, j);
                c.row = c.column = (size_t)-1;
            }
            refused(f, &c, 200 + k);
        }
}

/* A row or a column at its size, past it, and so large that its place would wrap around to a cell.
 */
static void out_of_range(const struct function *f, size_t round) {
    size_t i;
    for (i = 0; i < 4; i++) {
        size_t far = i == 1 ? (size_t)-1 : i == 2 ? ((size_t)-1 >> 1) + 1 : (size_t)-1 - 15;
        struct call c;
        good_sizes(f, &c, round);
        lend(f, &c, FRACTIONS, 3);
        if (f->has_column) {
            c.column = i == 0 ? c.size[f->sizes - 1] : far;
            refused(f, &c, 301);
        }
        if (f->has_row) {
            c.row = i == 0 ? c.size[0] : far;
            refused(f, &c, 300);
        }
    }
}

/* Each answer that the function has was given in the calls so far. */
static void all_answers_seen(const struct function *f) {
    size_t k, pivots = 0;
    char what[80];
    for (k = 0; k < sizeof seen; k++) {
        int has = k == 0 || (k >= 100 && k < 100 + f->sizes) ||
                  (k >= 200 && k < 200 + f->counted) || (k == 300 && f->has_row) ||
                  (k == 301 && f->has_column) || (k == 900 && corrects(f));
        if (seen[k] == has || k / 100 == 4)
            continue;
        sprintf(what, "the code %lu was %s", (unsigned long)k, has ? "never given" : "given");
        fail(f->name, what);
    }
    for (k = 400; k < 500; k++)
        pivots += (size_t)seen[k];
    /* pivot 0 alone for the one-state filter, and each from 0 to 15 elsewhere */
    if (pivots != (!f->has_pivots ? 0u : f->sizes == 0 ? 1u : 16u))
        fail(f->name, "not every pivot was refused");
    for (k = BAD_READING; k <= P_OVERFLOWS; k++)
        if (not_finite[k] != corrects(f))
            fail(f->name, "refusal 9 was not given for each kind of input that asks for it");
}

static void number_functions(void) {
    static const uint32_t special[] = {
        0,           0x80000000u, 1,           0x007fffffu, 0x00800000u, 0x3f800000u, 0x40000000u,
        0x7f7fffffu, 0x7f800000u, 0x7fc00000u, 0x80000001u, 0xbf800000u, 0xff800000u};
    size_t i, count = sizeof special / sizeof special[0];
    for (i = 0; i < 200000; i++) {
        uint32_t arg = i < count ? special[i] : draw(), found, want;
        float v = of_bits(arg);
        found = bits_of(yurgamysh_square_root(v));
        want = bits_of(model_square_root(v));
        if (found != want && !(is_nan_bits(found) && is_nan_bits(want)))
            fail("square_root", "differs from the processor");
        found = bits_of(yurgamysh_recip(v));
        want = bits_of(1.0f / v);
        if (found != want && !(is_nan_bits(found) && is_nan_bits(want)))
            fail("recip", "differs from the processor");
        calls += 2;
        numbers += 2;
    }
}

int main(void) {
    size_t i, round, examples, wrong;
    if (!room_make(MOST_BUFFERS)) {
        printf("no memory to lend\n");
        return 2;
    }
    for (i = 0; i < function_count; i++) {
        memset(seen, 0, sizeof seen);
        memset(not_finite, 0, sizeof not_finite);
        told = 0;
        good_input(&functions[i]);
        each_entry(&functions[i]);
        own_lines(&functions[i]);
        for (round = 0; round < 30; round++) {
            bad_sizes(&functions[i], round);
            short_buffers(&functions[i], round);
            out_of_range(&functions[i], round);
        }
        all_answers_seen(&functions[i]);
    }
    told = 0;
    number_functions();
    failures += run_feeders(&calls, &numbers);
    failures += run_cards(&calls, &numbers);
    failures += run_card_writing(&calls, &numbers);
    wrong = run_examples(&examples);
    failures += wrong;
    printf("%lu functions, %lu calls, %lu numbers compared, %lu examples: %lu failed\n",
           (unsigned long)function_count + 7, calls, numbers, (unsigned long)examples, failures);
    return failures != 0;
}
