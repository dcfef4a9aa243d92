#include "../../include/yurgamysh.h"

#include "feeders.h"
#include "inputs.h"
#include "room.h"

#include <math.h>
#include <stdio.h>
#include <string.h>

/* The rooms that are lent. */
enum { FEEDERS, READINGS, COUNTS, ROOMS };
enum { MOST = 12, COUNTS_FLOATS = sizeof(yurgamysh_counts) / sizeof(float) };
enum { PREDICTS, CORRECTS, BOTH };

struct row {
    float *feeders;
    size_t feeders_len;
    float *readings;
    size_t readings_len;
};

static const uint32_t nan_bits[] = {0x7fc12345u, 0xffc54321u, 0x7f812345u, 0xff800001u,
                                    0x7fffffffu};
enum { NANS = sizeof nan_bits / sizeof nan_bits[0] };

static unsigned long calls, numbers, failures;
/* Which codes a prediction and a correction have given. */
static char seen[BOTH][1000];

static void fail(const char *what) {
    if (failures++ < 3)
        printf("feeders: %s\n", what);
}

/* Lends n records and m readings with so many more past each. All are marks, each a NaN, until they
   are filled, and so are the counts. */
static struct row lend(size_t n, size_t m, size_t past) {
    struct row r;
    size_t k;
    for (k = 0; k < ROOMS; k++)
        room_mark(k);
    r.feeders = room_end(FEEDERS) - (n + past) * RECORD_FLOATS;
    r.feeders_len = n;
    r.readings = room_end(READINGS) - (m + past);
    r.readings_len = m;
    return r;
}

static float *record(const struct row *r, size_t i) { return r->feeders + i * RECORD_FLOATS; }

/* Feeders that run well, no two alike, with any counts, and readings for those that have one. */
static struct row lend_well(size_t n, size_t m, size_t past) {
    struct row r = lend(n, m, past);
    size_t i;
    for (i = 0; i < n; i++) {
        const float well[] = {30.0f + (float)i, 4, 1, 0.0625f, 1, 2};
        fill_record(record(&r, i), WHOLE);
        memcpy(record(&r, i), well, sizeof well);
        if (i < m)
            r.readings[i] = 36.5f - (float)i;
    }
    return r;
}

/* The code by the rules, and in copies of the rooms what the calls of one record leave, made from
   the first to the last. */
static size_t one_by_one(int call, const struct row *r, float rooms[][ROOM_FLOATS]) {
    size_t i, n = r->feeders_len;
    yurgamysh_counts counts = {0, n};
    if (n > MOST)
        return 100;
    if (call == CORRECTS && r->readings_len < n)
        return 201;
    for (i = 0; i < n; i++) {
        float *at = rooms[FEEDERS] + ROOM_FLOATS - (room_end(FEEDERS) - record(r, i));
        yurgamysh_one_state yarn;
        memcpy(&yarn, at, sizeof yarn);
        if (call == PREDICTS)
            yurgamysh_one_state_predict(&yarn);
        else if (yurgamysh_one_state_correct(&yarn, r->readings[i]) == 0)
            counts.accepted++;
        else if (counts.first_refused == n)
            counts.first_refused = i;
        memcpy(at, &yarn, sizeof yarn);
    }
    if (call == CORRECTS)
        memcpy(rooms[COUNTS] + ROOM_FLOATS - COUNTS_FLOATS, &counts, sizeof counts);
    return 0;
}

/* Whether two that differ will do at this place of the records' room once a call is done: in x and
   p of a prediction any NaN for a NaN. In the last float the count decides, and not the padding. */
static int agrees(int call, const struct row *r, size_t place, uint32_t found, uint32_t wanted) {
    size_t start, cell;
    if (r->feeders_len == 0)
        return 0;
    start = (size_t)(ROOM_FLOATS - (room_end(FEEDERS) - r->feeders));
    if (place < start || place - start >= r->feeders_len * RECORD_FLOATS)
        return 0;
    cell = (place - start) % RECORD_FLOATS;
    if (cell == 6)
        return memcmp(&found, &wanted, 1) == 0;
    return call == PREDICTS && cell < 2 && is_nan_bits(found) && is_nan_bits(wanted);
}

/* Makes the call, and holds its answer and every number in the rooms to those made one by one. */
static size_t make(int call, const struct row *r) {
    static float wanted_in[ROOMS][ROOM_FLOATS];
    yurgamysh_one_state *feeders = (yurgamysh_one_state *)(void *)r->feeders;
    yurgamysh_counts *counts = (yurgamysh_counts *)(void *)(room_end(COUNTS) - COUNTS_FLOATS);
    size_t k, i, code, want;
    char what[200];
    for (k = 0; k < ROOMS; k++)
        memcpy(wanted_in[k], room_end(k) - ROOM_FLOATS, sizeof wanted_in[k]);
    want = one_by_one(call, r, wanted_in);
    if (call == PREDICTS)
        code = yurgamysh_feeders_predict(feeders, r->feeders_len);
    else
        code = yurgamysh_feeders_correct(feeders, r->feeders_len, r->readings, r->readings_len,
                                         counts);
    calls++;
    if (code < sizeof seen[call])
        seen[call][code] = 1;
    if (code != want) {
        sprintf(what, "%lu feeders, %lu readings: answers %lu, expected %lu",
                (unsigned long)r->feeders_len, (unsigned long)r->readings_len, (unsigned long)code,
                (unsigned long)want);
        fail(what);
    }
    for (k = 0; k < ROOMS; k++)
        for (i = 0; i < ROOM_FLOATS; i++) {
            uint32_t found = bits_of((room_end(k) - ROOM_FLOATS)[i]),
                     wanted = bits_of(wanted_in[k][i]);
            numbers++;
            if (found == wanted || (k == FEEDERS && want == 0 && agrees(call, r, i, found, wanted)))
                continue;
            sprintf(what, "%lu feeders, code %lu, room %lu, cell -%lu: %08lx, expected %08lx",
                    (unsigned long)r->feeders_len, (unsigned long)code, (unsigned long)k,
                    (unsigned long)(ROOM_FLOATS - i), (unsigned long)found, (unsigned long)wanted);
            fail(what);
            break;
        }
    return code;
}

/* The counts that were written are these. */
static int counted(size_t accepted, size_t first_refused) {
    yurgamysh_counts counts;
    memcpy(&counts, room_end(COUNTS) - COUNTS_FLOATS, sizeof counts);
    return counts.accepted == accepted && counts.first_refused == first_refused;
}

/* Makes the correction, in which the feeders of these bits are refused and no others. Their floats
   keep their 24 bytes, and their counts are one up, or still 255; those of the others are 0. */
static void refuses(const struct row *r, unsigned refused) {
    unsigned char before[MOST][sizeof(yurgamysh_one_state)];
    size_t i, n = r->feeders_len, accepted = 0, first = n;
    memcpy(before, r->feeders, n * sizeof before[0]);
    if (make(CORRECTS, r) != 0)
        fail("a row was not corrected");
    for (i = n; i-- > 0;) {
        unsigned char after[sizeof before[0]];
        memcpy(after, record(r, i), sizeof after);
        if (refused >> i & 1) {
            first = i;
            if (memcmp(after, before[i], 24) != 0 ||
                after[24] != (before[i][24] < 255 ? before[i][24] + 1 : 255))
                fail("a refused feeder lost its floats, or was not counted");
        } else {
            accepted++;
            if (after[24] != 0)
                fail("an accepted feeder is blind");
        }
    }
    if (!counted(accepted, first))
        fail("the counts are not those of the feeders");
}

/* Has feeder i refused in one of five ways: three by its reading, two by its pivot. */
static void spoil(const struct row *r, size_t i, size_t way) {
    static const float bad[] = {NAN, INFINITY, -INFINITY};
    if (way < 3)
        r->readings[i] = bad[way];
    else if (way == 3)
        record(r, i)[1] = -1000;
    else
        record(r, i)[5] = INFINITY;
}

/* Rows of every length, with every choice of the feeders that are refused. */
static void every_choice(void) {
    size_t n, i;
    unsigned choice;
    for (n = 0; n <= MOST; n++)
        for (choice = 0; choice < 1u << n; choice++) {
            struct row r = lend_well(n, n + draw() % 3, draw() % 3);
            for (i = 0; i < n; i++)
                if (choice >> i & 1)
                    spoil(&r, i, draw() % 5);
            refuses(&r, choice);
        }
}

/* Rows of every length, of feeders and readings of every kind, each predicted and corrected. */
static void every_kind(void) {
    size_t n, round, i;
    for (n = 0; n <= MOST; n++)
        for (round = 0; round < 2000; round++) {
            struct row r = lend(n, n + draw() % 4, draw() % 4);
            int first = (int)(draw() % BOTH);
            for (i = 0; i < n; i++) {
                enum kind kind = (enum kind)(draw() % KINDS);
                fill_record(record(&r, i), kind);
                r.readings[i] = draw_number(kind);
            }
            make(first, &r);
            make(BOTH - 1 - first, &r);
        }
}

/* Twelve that run well, but for a NaN in this cell of feeder i, or, where the cell is 6, as its
   reading. */
static struct row lend_nan(size_t i, size_t cell, uint32_t nan) {
    struct row r = lend_well(MOST, MOST + 1, 1);
    memcpy(cell < 6 ? &record(&r, i)[cell] : &r.readings[i], &nan, sizeof nan);
    return r;
}

/* Each way to be refused, and each NaN as the reading and as each of the six floats, in each place
   of twelve. A NaN as a or q refuses nothing: there the reading is made bad. */
static void every_place(void) {
    size_t i, k, cell;
    struct row r;
    for (i = 0; i < MOST; i++) {
        for (k = 0; k < 5; k++) {
            r = lend_well(MOST, MOST, 1);
            spoil(&r, i, k);
            refuses(&r, 1u << i);
        }
        for (k = 0; k < NANS; k++)
            for (cell = 0; cell < RECORD_FLOATS; cell++) {
                r = lend_nan(i, cell, nan_bits[k]);
                refuses(&r, cell == 2 || cell == 3 ? 0 : 1u << i);
                r = lend_nan(i, cell, nan_bits[k]);
                spoil(&r, i, 1);
                refuses(&r, 1u << i);
                make(PREDICTS, &r);
            }
    }
}

/* The call is refused with this code. What it leaves is compared where it is made. */
static void refused(int call, const struct row *r, size_t code) {
    if (make(call, r) != code)
        fail("a call was not refused as it should be");
}

/* More than twelve records, all of them there, whatever the readings; and fewer readings than
   records, one less, none, and null. */
static void refused_calls(void) {
    size_t n, m;
    for (n = 1; n <= 2 * MOST; n++)
        for (m = 0; m <= n + 1; m++) {
            struct row r = lend_well(n, m, draw() % 3);
            if (n > MOST) {
                refused(PREDICTS, &r, 100);
                refused(CORRECTS, &r, 100);
            } else if (m < n) {
                refused(CORRECTS, &r, 201);
            }
            if (m > 0)
                continue;
            r.readings = NULL;
            refused(CORRECTS, &r, n > MOST ? 100 : 201);
            /* the length alone decides, with all its bits: nothing is looked at */
            r.feeders_len = ((size_t)-1 >> 1) + 1;
            refused(PREDICTS, &r, 100);
            refused(CORRECTS, &r, 100);
        }
}

/* No feeders, with and without a pointer, and with readings or none: both counts are 0. */
static void no_feeders(void) {
    size_t m, null;
    for (m = 0; m <= MOST + 1; m++)
        for (null = 0; null < 4; null++) {
            struct row r = lend(0, m, 1);
            if (null & 1)
                r.feeders = NULL;
            if (null & 2 && m == 0)
                r.readings = NULL;
            if (make(PREDICTS, &r) != 0 || make(CORRECTS, &r) != 0 || !counted(0, 0))
                fail("a row of none was not taken");
        }
}

/* 300 rounds, feeder i being blind in the first 25*i of them: counts of 0 to 255, and 0 at last. */
static void a_night(void) {
    struct row r = lend_well(MOST, MOST, 2);
    unsigned round, i, blind, shown = 0;
    for (i = 0; i < MOST; i++)
        memset(&record(&r, i)[6], 0, 1);
    for (round = 0; round < 300; round++) {
        unsigned wires = 0;
        for (i = 0; i < MOST; i++) {
            r.readings[i] = 36.0f;
            if (round < 25 * i) {
                wires |= 1u << i;
                r.readings[i] = NAN;
            }
        }
        make(PREDICTS, &r);
        refuses(&r, wires);
        for (i = 0; i < MOST; i++) {
            blind = *((unsigned char *)record(&r, i) + 24);
            shown += blind == (round >= 25 * i ? 0u : round < 255 ? round + 1 : 255u);
        }
    }
    if (shown != 300 * MOST)
        fail("a count through the night is wrong");
}

/* Each code that the functions have was given, and no other. */
static void all_codes_seen(void) {
    size_t code;
    for (code = 0; code < sizeof seen[0]; code++)
        if (seen[PREDICTS][code] != (code == 0 || code == 100) ||
            seen[CORRECTS][code] != (code == 0 || code == 100 || code == 201))
            fail("a code was never given, or is none of the function's");
}

unsigned long run_feeders(unsigned long *calls_made, unsigned long *numbers_compared) {
    every_choice();
    every_kind();
    every_place();
    refused_calls();
    no_feeders();
    a_night();
    all_codes_seen();
    *calls_made += calls;
    *numbers_compared += numbers;
    return failures;
}
