#include "../../include/yurgamysh.h"

#include "examples.h"
#include "room.h"

#include <float.h>
#include <math.h>
#include <stdio.h>
#include <string.h>

static size_t made, wrong;

static void expect(const char *what, int holds) {
    made++;
    if (holds)
        return;
    wrong++;
    printf("example: %s\n", what);
}

/* The same bits; any NaN for a NaN. */
static int same(size_t count, const float *found, const float *want) {
    size_t i;
    for (i = 0; i < count; i++) {
        uint32_t f = bits_of(found[i]), w = bits_of(want[i]);
        if (f != w && !(is_nan_bits(f) && is_nan_bits(w)))
            return 0;
    }
    return 1;
}

static void roots(void) {
    static const uint32_t pair[][2] = {{0x40800000u, 0x40000000u},
                                       {0x40000000u, 0x3fb504f3u},
                                       {1, 0x1a3504f3u},
                                       {0x7f7fffffu, 0x5f7fffffu},
                                       {0x80000000u, 0x80000000u}};
    size_t i;
    for (i = 0; i < sizeof pair / sizeof pair[0]; i++)
        expect("a square root", bits_of(yurgamysh_square_root(of_bits(pair[i][0]))) == pair[i][1]);
    expect("the reciprocal of 4", yurgamysh_recip(4.0f) == 0.25f);
}

static void predictions(void) {
    const float a[] = {1, 1, 0, 1}, q[] = {1, 0, 0, 1};
    const float x_after[] = {5, 2}, temp_after[] = {3, 4, 1, 3}, p_after[] = {8, 4, 4, 4},
                large[] = {16777216, 1};
    float x[] = {3, 2}, p[] = {2, 1, 1, 3}, predicted[2], temp[4];
    expect("a prediction is done",
           yurgamysh_predict(2, x, 2, a, 4, p, 4, q, 4, predicted, 2, temp, 4) == 0);
    expect("x of a prediction", same(2, x, x_after) && same(2, predicted, x_after));
    expect("P of a prediction", same(4, p, p_after) && same(4, temp, temp_after));
    x[0] = 16777215;
    x[1] = 1;
    expect("a sum of 2^24 is exact",
           yurgamysh_predict_x(2, x, 2, a, 4, predicted, 2) == 0 && same(2, x, large));
    expect("past 2^24 it is rounded",
           yurgamysh_predict_x(2, x, 2, a, 4, predicted, 2) == 0 && same(2, x, large));
}

static void decompositions(void) {
    const float factor[] = {2, 0, 1, 2}, inverse[] = {0.3125f, -0.125f, -0.125f, 0.25f},
                left[] = {1, 2, 2, -3};
    const float minus_zero[] = {-0.0f}, no_number[] = {NAN}, infinite[] = {INFINITY}, zero[] = {0},
                largest[] = {18446742974197923840.0f}, stays[] = {2, 2, 1, INFINITY};
    float t[] = {4, 2, 2, 5}, lower_ignored[] = {4, 2, NAN, 5}, refused[] = {1, 2, 2, 1},
          second[] = {4, 2, 2, INFINITY}, inv[4], one[1];
    expect("[4 2; 2 5]", yurgamysh_cholesky_decompose_lower(2, t, 4) == 0 && same(4, t, factor));
    expect("with NaN at (1,0)", yurgamysh_cholesky_decompose_lower(2, lower_ignored, 4) == 0 &&
                                    same(4, lower_ignored, factor));
    expect("its inverse",
           yurgamysh_invert_l_cholesky(2, t, 4, inv, 4) == 0 && same(4, inv, inverse));
    expect("[1 2; 2 1]",
           yurgamysh_cholesky_decompose_lower(2, refused, 4) == 401 && same(4, refused, left));
    one[0] = -5;
    expect("[-5]",
           yurgamysh_cholesky_decompose_lower(1, one, 1) == 400 && same(1, one, minus_zero));
    one[0] = NAN;
    expect("[NaN]",
           yurgamysh_cholesky_decompose_lower(1, one, 1) == 400 && same(1, one, no_number));
    one[0] = INFINITY;
    expect("[infinity]",
           yurgamysh_cholesky_decompose_lower(1, one, 1) == 400 && same(1, one, no_number));
    one[0] = FLT_MAX;
    expect("[the largest]",
           yurgamysh_cholesky_decompose_lower(1, one, 1) == 0 && same(1, one, largest));
    expect("[4 2; 2 infinity]",
           yurgamysh_cholesky_decompose_lower(2, second, 4) == 401 && same(4, second, stays));
    expect("the inverse from [infinity]",
           yurgamysh_invert_l_cholesky(1, infinite, 1, inv, 1) == 0 && same(1, inv, zero));
}

static void corrections(void) {
    const float h[] = {1}, r[] = {1}, z[] = {5}, broken[] = {INFINITY};
    float x[] = {1}, p[] = {3}, y[1], s[1], k[] = {7}, s_inv[1], hp[1], pht[1], khp[1];
    expect("a correction", yurgamysh_correct(1, 1, x, 1, p, 1, h, 1, z, 1, r, 1, y, 1, s, 1, k, 1,
                                             s_inv, 1, hp, 1, pht, 1, khp, 1) == 0);
    expect("its x, P, K and S", x[0] == 4 && p[0] == 0.75f && k[0] == 0.75f && s[0] == 2);
    x[0] = 1;
    p[0] = -3;
    k[0] = 7;
    expect("a spread below zero", yurgamysh_correct(1, 1, x, 1, p, 1, h, 1, z, 1, r, 1, y, 1, s, 1,
                                                    k, 1, s_inv, 1, hp, 1, pht, 1, khp, 1) == 400);
    expect("its x, P and K as lent",
           x[0] == 1 && p[0] == -3 && k[0] == 7 && y[0] == 4 && hp[0] == -3);
    x[0] = 1;
    p[0] = 3;
    expect("an infinite R", yurgamysh_correct(1, 1, x, 1, p, 1, h, 1, z, 1, broken, 1, y, 1, s, 1, k,
                                              1, s_inv, 1, hp, 1, pht, 1, khp, 1) == 400);
    expect("its x and P as lent", x[0] == 1 && p[0] == 3 && k[0] == 7 && isnan(s[0]));
}

/* The buffers of a correction of two states by one reading: what it goes by, and what it works in.
   Those that are written have a float past their matrix. */
struct given {
    float x[3], p[5], h[2], z[1], r[1];
};
struct work {
    float y[2], s[2], k[3], s_inv[2], hp[3], pht[3], khp[5];
};

/* S = 8 + 16 + 40, and every number is exact. */
static const struct given two = {{3, 2, 77}, {4, 2, 2, 3, 77}, {1, 2}, {17}, {40}},
                          two_after = {{4.25f, 3.25f, 77}, {3, 1, 1, 2, 77}, {1, 2}, {17}, {40}};
static const struct work unused = {{0.5f, 77},       {1.5f, 77},    {2.5f, 3.5f, 77}, {4.5f, 77},
                                   {5.5f, 6.5f, 77}, {7.5f, 8, 77}, {9, 9, 9, 9, 77}},
                         two_work = {{10, 77},   {8, 77},    {0.125f, 0.125f, 77}, {0.015625f, 77},
                                     {8, 8, 77}, {8, 8, 77}, {1, 1, 1, 1, 77}};

static size_t correct_two(struct given *g, struct work *w) {
    return yurgamysh_correct(2, 1, g->x, 3, g->p, 5, g->h, 2, g->z, 1, g->r, 1, w->y, 2, w->s, 2,
                             w->k, 3, w->s_inv, 2, w->hp, 3, w->pht, 3, w->khp, 5);
}

static size_t update_two(struct given *g, struct work *w) {
    return yurgamysh_update(2, 1, g->x, 3, g->p, 5, g->h, 2, g->r, 1, w->y, 2, w->s, 2, w->k, 3,
                            w->s_inv, 2, w->hp, 3, w->pht, 3, w->khp, 5);
}

static int same_work(const struct work *found, const struct work *want) {
    return same(2, found->y, want->y) && same(2, found->s, want->s) && same(3, found->k, want->k) &&
           same(2, found->s_inv, want->s_inv) && same(3, found->hp, want->hp) &&
           same(3, found->pht, want->pht) && same(5, found->khp, want->khp);
}

/* The correction, and the update from its y, give this code and leave every number so. */
static void expect_two(const char *what, const struct given *lent, size_t code,
                       const struct given *after, const struct work *work) {
    struct given g = *lent;
    struct work w = unused;
    expect(what,
           correct_two(&g, &w) == code && memcmp(&g, after, sizeof g) == 0 && same_work(&w, work));
    g = *lent;
    w = unused;
    w.y[0] = work->y[0];
    expect(what,
           update_two(&g, &w) == code && memcmp(&g, after, sizeof g) == 0 && same_work(&w, work));
}

static void bad_readings(void) {
    const float bad[] = {NAN, INFINITY, -INFINITY};
    struct given g = two, after = two_after;
    struct work work = two_work;
    size_t i;
    expect_two("two states", &two, 0, &two_after, &two_work);
    for (i = 0; i < 3; i++) {
        g.z[0] = work.y[0] = bad[i];
        expect_two("a reading that is not finite", &g, 900, &g, &work);
    }
    /* what lies past x and P does not count */
    g = two;
    g.x[2] = after.x[2] = NAN;
    g.p[4] = after.p[4] = INFINITY;
    expect_two("NaN past x, infinity past P", &g, 0, &after, &two_work);
    /* the pivot is told first: S = 24 - 100 */
    g.z[0] = NAN;
    g.r[0] = -100;
    work = unused;
    work.y[0] = NAN;
    work.s[0] = -0.0f;
    work.hp[0] = work.hp[1] = 8;
    expect_two("a bad reading and a bad pivot", &g, 400, &g, &work);
}

static void overflows(void) {
    const float large = ldexpf(1.0f, 100), gain = ldexpf(1.0f, 98);
    /* y is half of the largest number and K is 2; P would be 0 0 0 3 */
    const struct given x_alone = {{FLT_MAX, 2, 77}, {4, 0, 0, 3, 77}, {0.5f, 0}, {FLT_MAX}, {0}};
    const struct work x_work = {{FLT_MAX / 2, 77}, {1, 77},    {2, 0, 77},      {1, 77},
                                {2, 0, 77},        {2, 0, 77}, {4, 0, 0, 0, 77}};
    /* the first state has much in common with the second, the one that is seen; x would be
       2^100 3 */
    const struct given p_alone = {{3, 2, 77}, {1, large, large, 1, 77}, {0, 1}, {6}, {3}};
    const struct work p_work = {{4, 77},
                                {2, 77},
                                {gain, 0.25f, 77},
                                {0.25f, 77},
                                {large, 1, 77},
                                {large, 1, 77},
                                {INFINITY, gain, gain, 0.25f, 77}};
    struct given g = x_alone, after = x_alone;
    struct work work = x_work;
    expect_two("x alone overflows", &x_alone, 900, &x_alone, &x_work);
    expect_two("P alone overflows", &p_alone, 900, &p_alone, &p_work);
    /* the largest number is finite */
    g.z[0] = after.z[0] = FLT_MAX / 2;
    work.y[0] = after.p[0] = 0;
    expect_two("the largest x", &g, 0, &after, &work);
}

/* What must hold for the test to compile; C99 has no word for it. */
#if defined __cplusplus
#define HOLDS(name, test) static_assert(test, #name)
#elif __STDC_VERSION__ >= 201112L
#define HOLDS(name, test) _Static_assert(test, #name)
#else
#define HOLDS(name, test) typedef char name[(test) ? 1 : -1]
#endif
#define AT(type, member, offset)                                                                   \
    HOLDS(member##_is_at_##offset, offsetof(yurgamysh_##type, member) == offset)

struct yarn_after_a_byte {
    char byte;
    yurgamysh_one_state yarn;
};

struct counts_after_a_byte {
    char byte;
    yurgamysh_counts counts;
};

AT(one_state, x, 0);
AT(one_state, p, 4);
AT(one_state, a, 8);
AT(one_state, q, 12);
AT(one_state, h, 16);
AT(one_state, r, 20);
AT(one_state, blind, 24);
HOLDS(blind_is_a_byte, sizeof(((yurgamysh_one_state *)0)->blind) == 1);
HOLDS(a_record_has_28_bytes, sizeof(yurgamysh_one_state) == 28);
HOLDS(a_record_is_aligned_to_4, offsetof(struct yarn_after_a_byte, yarn) == 4);
AT(counts, accepted, 0);
AT(counts, first_refused, 8);
HOLDS(counts_have_16_bytes, sizeof(yurgamysh_counts) == 16);
HOLDS(counts_are_aligned_to_8, offsetof(struct counts_after_a_byte, counts) == 8);
HOLDS(a_row_has_up_to_12, YURGAMYSH_MAX_FEEDERS == 12);

/* A record with this count, and bytes of its own in the padding. */
static yurgamysh_one_state *lend_yarn(yurgamysh_one_state *yarn, const float *numbers,
                                      uint8_t blind) {
    memset(yarn, 0xa5, sizeof *yarn);
    memcpy(yarn, numbers, 6 * sizeof(float));
    memcpy(&yarn->blind, &blind, 1);
    return yarn;
}

/* a, q, h and r are these, to the bit. */
static int keeps(const yurgamysh_one_state *yarn, const float *numbers) {
    return memcmp((const char *)yarn + 8, &numbers[2], 4 * sizeof(float)) == 0;
}

/* The record has these six numbers and this count. */
static int has(const yurgamysh_one_state *yarn, const float *numbers, uint8_t blind) {
    return same(1, &yarn->x, &numbers[0]) && same(1, &yarn->p, &numbers[1]) &&
           keeps(yarn, numbers) && yarn->blind == blind;
}

/* The reading is refused with this code, and the count is one up, or still 255. Every other byte is
   as lent. */
static int blinds(yurgamysh_one_state *yarn, float z, size_t code) {
    unsigned char want[sizeof *yarn];
    memcpy(want, yarn, sizeof want);
    if (want[24] < 255)
        want[24]++;
    return yurgamysh_one_state_correct(yarn, z) == code && memcmp(yarn, want, sizeof want) == 0;
}

/* The correction of the record, and of the filter at n = m = 1, is refused with this code. From any
   count it leaves the record but for that, or x and P, as lent. */
static void expect_record(const char *what, const float *numbers, float z, size_t code) {
    float x = numbers[0], p = numbers[1], w[7];
    yurgamysh_one_state yarn;
    unsigned count, held = 0;
    for (count = 0; count <= 255; count++)
        held += blinds(lend_yarn(&yarn, numbers, (uint8_t)count), z, code);
    expect(what, held == 256);
    expect(what,
           yurgamysh_correct(1, 1, &x, 1, &p, 1, &numbers[4], 1, &z, 1, &numbers[5], 1, &w[0], 1,
                             &w[1], 1, &w[2], 1, &w[3], 1, &w[4], 1, &w[5], 1, &w[6], 1) == code &&
               same(1, &x, &numbers[0]) && same(1, &p, &numbers[1]));
}

static void records(void) {
    const float good[] = {1, 3, 1, 0, 1, 1}, good_after[] = {4, 0.75f, 1, 0, 1, 1},
                moved[] = {3, 2, 5, 7, 1, 1}, moved_after[] = {15, 57, 5, 7, 1, 1},
                below[] = {1, -3, 1, 0, 1, 1}, broken[] = {1, 3, 1, 0, 1, INFINITY},
                model[] = {1, 3, NAN, INFINITY, 1, 1}, after[] = {4, 0.75f, NAN, INFINITY, 1, 1};
    yurgamysh_one_state yarn = yurgamysh_one_state_new(1, 2, 3, 4, 5, 6);
    unsigned count, left = 0, zeroed = 0;
    expect("a new record", yarn.x == 1 && yarn.p == 2 && yarn.a == 3 && yarn.q == 4 &&
                               yarn.h == 5 && yarn.r == 6 && yarn.blind == 0);
    for (count = 0; count <= 255; count++) {
        yurgamysh_one_state_predict(lend_yarn(&yarn, moved, (uint8_t)count));
        left += has(&yarn, moved_after, (uint8_t)count);
        zeroed += yurgamysh_one_state_correct(lend_yarn(&yarn, good, (uint8_t)count), 5) == 0 &&
                  has(&yarn, good_after, 0);
    }
    expect("a prediction leaves any count", left == 256);
    expect("an accepted correction sets any count to 0", zeroed == 256);
    expect_record("an infinite r of the record", broken, 5, 400);
    expect_record("a spread of the record below zero", below, 5, 400);
    expect("a and q of a record are not tested",
           yurgamysh_one_state_correct(lend_yarn(&yarn, model, 0), 5) == 0 && has(&yarn, after, 0));
}

static void spoilt_records(void) {
    const float good[] = {1, 3, 1, 0, 1, 1}, far[] = {FLT_MAX, 4, 1, 0, 0.5f, 0},
                top = ldexpf(1.0f, 126), wide[] = {1, top, 1, 0, 1, ldexpf(1.0f, 102) - top},
                below[] = {1, -3, 1, 0, 1, 1}, x_far[] = {FLT_MAX, 1, 2, 0, 1, 1},
                p_far[] = {1, FLT_MAX, 2, 0, 1, 1}, spoilt_x[] = {INFINITY, 4, 2, 0, 1, 1},
                spoilt_p[] = {2, INFINITY, 2, 0, 1, 1};
    yurgamysh_one_state yarn;
    expect_record("a record and NaN", good, NAN, 900);
    expect_record("a record and infinity", good, INFINITY, 900);
    expect_record("a record and -infinity", good, -INFINITY, 900);
    expect_record("x of a record overflows", far, FLT_MAX, 900);
    expect_record("p of a record overflows", wide, 1, 900);
    expect_record("a record with a bad pivot and NaN", below, NAN, 400);
    /* a prediction is not tested, and after it no correction is accepted */
    yurgamysh_one_state_predict(lend_yarn(&yarn, x_far, 7));
    expect("a prediction of x overflows", has(&yarn, spoilt_x, 7));
    expect_record("its correction", spoilt_x, 5, 900);
    yurgamysh_one_state_predict(lend_yarn(&yarn, p_far, 7));
    expect("a prediction of p overflows", has(&yarn, spoilt_p, 7));
    expect_record("its correction", spoilt_p, 5, 400);
}

/* A refused record keeps each NaN to the bit, quiet or not, in any of its places; any other keeps
   those of a, q, h and r. */
static void payloads(void) {
    static const uint32_t nan[] = {0x7fc12345u, 0xffc54321u, 0x7f812345u, 0xff800001u, 0x7fffffffu};
    const float good[] = {1, 3, 1, 0, 1, 1};
    float numbers[6];
    yurgamysh_one_state yarn;
    size_t i, place;
    for (i = 0; i < sizeof nan / sizeof nan[0]; i++)
        for (place = 0; place < 6; place++) {
            memcpy(numbers, good, sizeof numbers);
            memcpy(&numbers[place], &nan[i], sizeof nan[i]);
            /* p, h and r are in the pivot; x, a and q are not */
            expect_record("a NaN in the record", numbers, NAN,
                          place == 1 || place == 4 || place == 5 ? 400 : 900);
            yurgamysh_one_state_predict(lend_yarn(&yarn, numbers, 7));
            expect("a NaN in a prediction", keeps(&yarn, numbers) && yarn.blind == 7);
            if (place == 2 || place == 3)
                expect("a NaN in an accepted correction",
                       yurgamysh_one_state_correct(lend_yarn(&yarn, numbers, 7), 5) == 0 &&
                           keeps(&yarn, numbers) && yarn.blind == 0);
        }
}

/* A call on one feeder of twelve leaves every byte of the others. */
static void feeders_in_a_row(void) {
    enum { FEEDERS = 12 };
    yurgamysh_one_state feeders[FEEDERS], before[FEEDERS];
    const float good[] = {1, 3, 1, 0, 1, 1};
    /* a prediction, a correction, and one of each refusal */
    const size_t codes[] = {0, 0, 900, 400};
    size_t i, k, call, code, alone = 0;
    for (i = 0; i < FEEDERS; i++)
        for (call = 0; call < 4; call++) {
            for (k = 0; k < FEEDERS; k++)
                memset(&feeders[k], (int)(0x7f - k), sizeof feeders[k]);
            lend_yarn(&feeders[i], good, 255);
            if (call == 3)
                feeders[i].r = -INFINITY;
            memcpy(before, feeders, sizeof before);
            code = 0;
            if (call == 0)
                yurgamysh_one_state_predict(&feeders[i]);
            else
                code = yurgamysh_one_state_correct(&feeders[i], call == 2 ? NAN : 5);
            memcpy(&before[i], &feeders[i], sizeof before[i]);
            alone += code == codes[call] && memcmp(before, feeders, sizeof before) == 0;
        }
    expect("a call on one feeder leaves the others", alone == 4 * FEEDERS);
}

/* 300 readings are refused, with a prediction before each: the count shows 1 to 255 and stays
   there. The first good reading then sets it to 0. */
static void expect_blind(const char *what, const float *numbers, float z, size_t code) {
    yurgamysh_one_state yarn;
    unsigned step, shown = 0;
    lend_yarn(&yarn, numbers, 0);
    for (step = 1; step <= 300; step++) {
        yurgamysh_one_state_predict(&yarn);
        shown += blinds(&yarn, z, code) && yarn.blind == (step < 255 ? step : 255);
    }
    expect(what, shown == 300);
    /* the fault is mended, if it was the record's */
    yarn.p = 3;
    yarn.r = 2;
    yurgamysh_one_state_predict(&yarn);
    expect(what, yarn.blind == 255 && yurgamysh_one_state_correct(&yarn, 36) == 0 &&
                     yarn.blind == 0 && yarn.x > 35 && yarn.x < 36);
    expect(what, blinds(&yarn, NAN, 900) && yarn.blind == 1);
}

static void blind_feeders(void) {
    const float well[] = {35, 4, 1, 0.0625f, 1, 2}, broken[] = {35, 4, 1, 0.0625f, 1, -INFINITY},
                below[] = {35, -1000, 1, 0.0625f, 1, 2};
    expect_blind("300 readings of NaN", well, NAN, 900);
    expect_blind("300 readings with r = -infinity", broken, 36, 400);
    expect_blind("300 readings with p below zero", below, 36, 400);
}

/* Five feeders: two are taken, two refused by their readings and one by its r; then all are
   predicted. */
static void a_row(void) {
    const float lent[][6] = {{1, 3, 1, 0, 1, 1},
                             {1, 3, 5, 7, 1, 1},
                             {1, 3, 1, 0, 1, INFINITY},
                             {3, 2, 5, 7, 1, 1},
                             {1, 3, 1, 0, 1, 1}};
    const float readings[] = {5, NAN, 5, INFINITY, 5, NAN};
    const float corrected[] = {4, 0.75f, 1, 0, 1, 1}, second[] = {5, 82, 5, 7, 1, 1},
                fourth[] = {15, 57, 5, 7, 1, 1};
    const uint8_t before[] = {7, 0, 254, 255, 0}, after[] = {0, 1, 255, 255, 0};
    yurgamysh_one_state feeders[5];
    yurgamysh_counts counts = {77, 78};
    size_t i, kept = 0;
    for (i = 0; i < 5; i++)
        lend_yarn(&feeders[i], lent[i], before[i]);
    expect("a row with too few readings",
           yurgamysh_feeders_correct(feeders, 5, readings, 4, &counts) == 201 &&
               yurgamysh_answer_of(201) == YURGAMYSH_SHORT && yurgamysh_carried_by(201) == 1);
    for (i = 0; i < 5; i++)
        kept += has(&feeders[i], lent[i], before[i]);
    expect("its records and counts",
           kept == 5 && counts.accepted == 77 && counts.first_refused == 78);
    expect("a row of five", yurgamysh_feeders_correct(feeders, 5, readings, 6, &counts) == 0);
    expect("two are accepted, and the second is the first refused",
           counts.accepted == 2 && counts.first_refused == 1);
    for (kept = i = 0; i < 5; i++)
        kept += has(&feeders[i], i % 4 == 0 ? corrected : lent[i], after[i]);
    expect("its records", kept == 5);
    expect("its prediction", yurgamysh_feeders_predict(feeders, 5) == 0);
    expect("its records then",
           has(&feeders[0], corrected, after[0]) && has(&feeders[1], second, after[1]) &&
               has(&feeders[2], lent[2], after[2]) && has(&feeders[3], fourth, after[3]) &&
               has(&feeders[4], corrected, after[4]));
    expect("the first alone", yurgamysh_feeders_correct(feeders, 1, readings, 1, &counts) == 0 &&
                                  counts.accepted == 1 && counts.first_refused == 1);
    expect("no feeders", yurgamysh_feeders_correct(NULL, 0, NULL, 0, &counts) == 0 &&
                             counts.accepted == 0 && counts.first_refused == 0 &&
                             yurgamysh_feeders_predict(NULL, 0) == 0);
}

/* A card of two states and one observation, no two of whose entries are alike. */
#define SIZES "edition=1\nstates=2\nobservations=1\n"
#define LINE_A "a=3f800000,40000000,c0400000,7fc00000\n"
#define LINE_Q "q=3f000000,80000000,00000001,7f800000\n"
#define LINE_H "h=40800000,40a00000\n"
#define LINE_R "r=c0c00000\n"

/* What a card is read into, with a float past each matrix. */
struct read_into {
    float a[5], q[5], h[3], r[2];
    size_t states, observations;
};
static const struct read_into nothing_read = {
    {77, 77, 77, 77, 77}, {77, 77, 77, 77, 77}, {77, 77, 77}, {77, 77}, 78, 79};

static int same_read(const struct read_into *found, const struct read_into *want) {
    return same(5, found->a, want->a) && same(5, found->q, want->q) && same(3, found->h, want->h) &&
           same(2, found->r, want->r) && found->states == want->states &&
           found->observations == want->observations;
}

static size_t read_card(const char *card, struct read_into *to) {
    return yurgamysh_card_read((const uint8_t *)card, strlen(card), to->a, 5, to->q, 5, to->h, 3,
                               to->r, 2, &to->states, &to->observations);
}

/* The card is refused with this code, by which it is told, and nothing is written. */
static void expect_refused(const char *card, size_t code, enum yurgamysh_answer answer,
                           size_t carried) {
    struct read_into to = nothing_read;
    expect(card, read_card(card, &to) == code && yurgamysh_answer_of(code) == answer &&
                     yurgamysh_carried_by(code) == carried && same_read(&to, &nothing_read));
}

static void cards(void) {
    const struct read_into want = {{1, 2, -3, NAN, 77},
                                   {0.5f, -0.0f, ldexpf(1.0f, -149), INFINITY, 77},
                                   {4, 5, 77},
                                   {-6, 77},
                                   2,
                                   1};
    struct read_into to = nothing_read;
    expect("a card is taken", read_card(SIZES LINE_A LINE_Q LINE_H LINE_R, &to) == 0);
    expect("its sizes and matrices", same_read(&to, &want));
    expect_refused("", 501, YURGAMYSH_LINE, 1);
    expect_refused("edition=1\r\nstates=2\r\n", 501, YURGAMYSH_LINE, 1);
    expect_refused("edition=2", 501, YURGAMYSH_LINE, 1);
    expect_refused("edition=2\n", 600, YURGAMYSH_EDITION, 0);
    expect_refused("edition=1\nobservations=1\nstates=2\n", 502, YURGAMYSH_LINE, 2);
    expect_refused("edition=1\nstates=02\n", 502, YURGAMYSH_LINE, 2);
    expect_refused("edition=1\nstates=0\n", 100, YURGAMYSH_SIZE, 0);
    expect_refused("edition=1\nstates=17\n", 100, YURGAMYSH_SIZE, 0);
    expect_refused("edition=1\nstates=2\nobservation=1\n", 503, YURGAMYSH_LINE, 3);
    expect_refused("edition=1\nstates=2\nobservations=0\n", 101, YURGAMYSH_SIZE, 1);
    expect_refused(SIZES "a=3F800000,40000000,C0400000,7FC00000\n", 504, YURGAMYSH_LINE, 4);
    expect_refused(SIZES LINE_A LINE_H LINE_Q LINE_R, 505, YURGAMYSH_LINE, 5);
    expect_refused(SIZES LINE_A LINE_Q "h=40800000\n" LINE_R, 506, YURGAMYSH_LINE, 6);
    expect_refused(SIZES LINE_A LINE_Q LINE_H "r=c0c00000", 507, YURGAMYSH_LINE, 7);
    expect_refused(SIZES LINE_A LINE_Q LINE_H LINE_R "\n", 508, YURGAMYSH_LINE, 8);
    /* an R of two observations wants four floats, and two are there */
    expect_refused("edition=1\nstates=1\nobservations=2\na=3f800000\nq=3f800000\n"
                   "h=3f800000,3f800000\nr=3f800000,3f800000,3f800000,3f800000\n",
                   203, YURGAMYSH_SHORT, 3);
}

/* What a card is written into, with bytes to spare, and its length. */
struct written_to {
    char card[160];
    size_t length;
};

/* The numbers of the card above, and NaN of another pattern, written into so many bytes of x. */
static size_t write_card(size_t n, size_t m, size_t r_len, size_t card_len, struct written_to *to) {
    const float a[] = {1, 2, -3, of_bits(0xffc12345u)};
    const float q[] = {0.5f, -0.0f, ldexpf(1.0f, -149), INFINITY}, h[] = {4, 5}, r[] = {-6};
    memset(to->card, 'x', sizeof to->card);
    to->length = 77;
    return yurgamysh_card_write(n, m, a, 4, q, 4, h, 2, r, r_len, (uint8_t *)to->card, card_len,
                                &to->length);
}

/* The call is refused with this code, and nothing is written. */
static void expect_unwritten(const char *name, size_t code, size_t want,
                             const struct written_to *to) {
    expect(name, code == want && to->card[0] == 'x' && to->length == 77 &&
                     memcmp(to->card, to->card + 1, sizeof to->card - 1) == 0);
}

/* Asked how long the card of these sizes is, the library answers this code and leaves this. */
static int measures(size_t n, size_t m, size_t code, size_t length) {
    size_t found = 77;
    return yurgamysh_card_length(n, m, &found) == code && found == length;
}

static void written_cards(void) {
    const char *card = SIZES LINE_A LINE_Q LINE_H LINE_R;
    const size_t length = 141;
    struct read_into read = nothing_read;
    struct written_to to, again;
    expect("a card is written", write_card(2, 1, 1, sizeof to.card, &to) == 0);
    expect("its length", to.length == length && strlen(card) == length);
    expect("its bytes", memcmp(to.card, card, length) == 0);
    expect("the bytes past it", to.card[length] == 'x' && to.card[159] == 'x' &&
                                    memcmp(to.card + length, to.card + length + 1, 18) == 0);
    to.card[length] = 0;
    expect("it is read", read_card(to.card, &read) == 0);
    expect("and written again",
           yurgamysh_card_write(read.states, read.observations, read.a, 5, read.q, 5, read.h, 3,
                                read.r, 2, (uint8_t *)again.card, sizeof again.card,
                                &again.length) == 0 &&
               again.length == length && memcmp(again.card, card, length) == 0);
    expect("bytes that just hold it", write_card(2, 1, 1, length, &to) == 0 && to.length == length);
    expect_unwritten("a byte too few", write_card(2, 1, 1, length - 1, &to), 204, &to);
    expect_unwritten("no r and no bytes", write_card(2, 1, 0, 0, &to), 203, &to);
    expect_unwritten("no observations", write_card(2, 0, 0, 0, &to), 101, &to);
    expect_unwritten("17 states", write_card(17, 0, 0, 0, &to), 100, &to);
    expect("the shortest card", measures(1, 1, 0, 78));
    expect("the longest card", measures(16, 16, 0, 9260) && YURGAMYSH_MAX_CARD == 9260);
    expect("ten states and nine observations", measures(10, 9, 0, 3382));
    expect("no states have no card", measures(0, 17, 100, 77));
    expect("nor have 17 observations", measures(1, 17, 101, 77));
}

static void products(void) {
    const float a[] = {-1}, b[] = {0}, minus_zero[] = {-0.0f}, zero[] = {0};
    float c[1];
    expect("-1 times 0 by the row vector",
           yurgamysh_mult_rowvector(1, 1, a, 1, b, 1, c, 1) == 0 && same(1, c, minus_zero));
    expect("-1 times 0 by mult",
           yurgamysh_mult(1, 1, 1, a, 1, b, 1, c, 1) == 0 && same(1, c, zero));
}

size_t run_examples(size_t *count) {
    made = wrong = 0;
    roots();
    predictions();
    decompositions();
    corrections();
    bad_readings();
    overflows();
    records();
    spoilt_records();
    payloads();
    feeders_in_a_row();
    blind_feeders();
    a_row();
    cards();
    written_cards();
    products();
    *count = made;
    return wrong;
}
