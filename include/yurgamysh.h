/* Yurgamysh: a proved Kalman filter over buffers that the caller lends.

   Matrices are row-major: entry (r, c) of a matrix with cols columns is at r*cols + c. A size (n
   states, m observations, rows, inner, cols) is 1 to YURGAMYSH_MAX_SIZE. Each buffer comes as a
   pointer and the count of floats behind it; it may be longer than its matrix, and what lies past
   the matrix is never changed. A row of feeders comes as a pointer and the count of records behind
   it, 0 to YURGAMYSH_MAX_FEEDERS, and a card as a pointer and the count of bytes behind it.

   What the caller owes:
   - each pointer has as many floats behind it, `feeders` as many records, and `card` as many bytes, as
     the length beside it says, floats and records aligned as a float is (a length of 0 asks for
     nothing: the pointer may be NULL);
   - what the call writes (its pointer is not const) shares no memory with anything else that is lent
     to the same call; buffers that are only read may share;
   - `value` of yurgamysh_get points to one float, `yarn` to one record, `counts` to one
     yurgamysh_counts, and `length`, and in yurgamysh_card_read `states` and `observations`, to one
     size_t each, aligned as a size_t is, always: NULL is not allowed there;
   - the processor rounds to nearest and keeps subnormals, as it does when a program starts. Sums,
     products and quotients are its own instructions and follow its mode, so whoever set another one
     (MXCSR on x86-64, FPCR on Arm) puts it back before a call. Else other bits come; and with
     subnormals flushed to zero a subnormal pivot is refused that would have been taken. (A program
     that gcc links with -ffast-math starts with them flushed.)

   What the caller need not care about: any sizes, any lengths, any rows and columns, any floats,
   infinities and NaN among them, and any bytes of a card. Such a call answers or refuses. No call
   allocates, fails to return, or keeps a pointer; two threads may call at the same time, each with its
   own written buffers, records and counts.

   Stack that a call takes, its parameters included, as measured on x86-64: a prediction 0.2 kB at
   n = 1 and 4 and 1.4 kB at most, a correction 0.9 kB at n = m = 1 and 2.3 kB at most (a kB has 1,024
   bytes). With an earlier kit (5b) a call of the one-state record, or of a row of them, took 0.1 kB, and
   the reading or the writing of a card 0.3 kB. On Arm, before some sizes had lines of their own, a
   prediction took 1.4 kB and a correction 2.0 kB.

   The answer is one number: 0 where the call did its work, else 100 times the refusal's number plus
   what it carries. yurgamysh_answer_of and yurgamysh_carried_by take it apart.

     code      refusal               given exactly when                              leaves
     0         YURGAMYSH_DONE        none of the others is                           the results
     100 + k   YURGAMYSH_SIZE        size k is 0 or above 16, the first such         all as lent
     200 + k   YURGAMYSH_SHORT       buffer k is shorter than its matrix, or than    all as lent
                                     the card to be written, the first such
     300 + k   YURGAMYSH_RANGE       the row (k = 0) or the column (k = 1) is not    all as lent
                                     below its size, the row first
     400 + i   YURGAMYSH_PIVOT       pivot i is not above zero, or not finite, NaN   see the function
                                     included, the first such
     500 + k   YURGAMYSH_LINE        line k of a card, counted from 1, is missing,   all as lent
                                     misplaced, malformed or surplus, the first such
     600       YURGAMYSH_EDITION     a card says another edition than 1              all as lent
     900       YURGAMYSH_NOT_FINITE  some entry of the new x or P is not finite, an  x and P as lent,
                                     infinity or a NaN                               the rest as done

   They are tested in this order. Sizes and buffers count from 0 in the order of the parameters. Which
   NaN a NaN is (its sign and payload) is not decided. Of the one-state record a refusal leaves all as
   lent but the count of refusals: see its function. Of a row of feeders size 0 is how many they are,
   refused above 12 and not at 0; buffer 1, the readings, is refused where they are fewer than the
   feeders. A pivot, or what is not finite, refuses one feeder there and not the call: the code is 0,
   and `counts` tells how many were accepted. A card that is read is judged from its first line to its
   last, each of its sizes at the line that says it, and then come the buffers: see its function. Of one
   that is written the bytes are buffer 4, behind the four matrices.

   Only corrections are tested for what is not finite: yurgamysh_correct, yurgamysh_update,
   yurgamysh_one_state_correct, and yurgamysh_feeders_correct feeder by feeder. One that is accepted
   leaves the n numbers of x and the n*n of P finite; what lies past them does not count. Predictions
   are not tested: one whose numbers overflow is done, with infinities or NaN in x or P. After that
   every correction is refused, with YURGAMYSH_PIVOT or YURGAMYSH_NOT_FINITE, since what is not finite
   stays not finite when something is added to it or taken from it; nor does a later prediction mend
   it. So a filter that is spoilt can't look well again: set x and P anew then. */
#ifndef YURGAMYSH_H
#define YURGAMYSH_H

#include <stddef.h>
#include <stdint.h>

#ifdef __cplusplus
extern "C" {
#endif

enum {
    /* The largest size, and the most cells of a matrix. */
    YURGAMYSH_MAX_SIZE = 16,
    YURGAMYSH_MAX_CELLS = 256,
    /* The most feeders of a row. */
    YURGAMYSH_MAX_FEEDERS = 12,
    /* The most bytes of a card: that of 16 states and 16 observations. */
    YURGAMYSH_MAX_CARD = 9260
};

/* What a call says. */
enum yurgamysh_answer {
    YURGAMYSH_DONE = 0,
    YURGAMYSH_SIZE = 1,
    YURGAMYSH_SHORT = 2,
    YURGAMYSH_RANGE = 3,
    YURGAMYSH_PIVOT = 4,
    YURGAMYSH_LINE = 5,
    YURGAMYSH_EDITION = 6,
    YURGAMYSH_NOT_FINITE = 9
};

/* Which answer a code is. */
static inline enum yurgamysh_answer yurgamysh_answer_of(size_t code) {
    switch (code / 100) {
    case 0: return YURGAMYSH_DONE;
    case 1: return YURGAMYSH_SIZE;
    case 2: return YURGAMYSH_SHORT;
    case 3: return YURGAMYSH_RANGE;
    case 4: return YURGAMYSH_PIVOT;
    case 5: return YURGAMYSH_LINE;
    case 6: return YURGAMYSH_EDITION;
    default: return YURGAMYSH_NOT_FINITE;
    }
}

/* Which size, which buffer, the row (0) or the column (1), which pivot, or which line it is; 0 for
   done, for the edition and for not finite. */
static inline size_t yurgamysh_carried_by(size_t code) { return code % 100; }

/* ---- The filter: n states, m observations.

   x n             the estimate                z m             the readings
   A n by n        the model                   R m by m        the spread of the readings
   P n by n        the spread of the estimate  y m             the innovation, z - H*x
   Q n by n        the spread that a step adds S m by m        the spread of y, then its lower factor
   H m by n        how readings see states     K n by m        the gain
   predicted_x n, temp_P n by n, temp_S_inv m by m, temp_HP m by n, temp_PHt n by m, temp_KHP n by n:
   room to work in; whatever they hold on entry does not matter. */

/* x = A*x, P = A*P*A^T + Q. predicted_x ends as the new x, temp_P as A*P. What is not finite is not
   refused here: after an overflow every correction is, until x and P are set anew.
   Size 0: n. Buffers: 0 x, 1 A, 2 P, 3 Q, 4 predicted_x, 5 temp_P. */
size_t yurgamysh_predict(size_t n,
                         float *x, size_t x_len,
                         const float *a, size_t a_len,
                         float *p, size_t p_len,
                         const float *q, size_t q_len,
                         float *predicted_x, size_t predicted_x_len,
                         float *temp_p, size_t temp_p_len);

/* The first half: x = A*x. Size 0: n. Buffers: 0 x, 1 A, 2 predicted_x. */
size_t yurgamysh_predict_x(size_t n,
                           float *x, size_t x_len,
                           const float *a, size_t a_len,
                           float *predicted_x, size_t predicted_x_len);

/* The second half: P = A*P*A^T + Q. Size 0: n. Buffers: 0 A, 1 P, 2 Q, 3 temp_P. */
size_t yurgamysh_predict_p(size_t n,
                           const float *a, size_t a_len,
                           float *p, size_t p_len,
                           const float *q, size_t q_len,
                           float *temp_p, size_t temp_p_len);

/* y = z - H*x. Sizes: 0 n, 1 m. Buffers: 0 x, 1 H, 2 z, 3 y. */
size_t yurgamysh_innovation(size_t n, size_t m,
                            const float *x, size_t x_len,
                            const float *h, size_t h_len,
                            const float *z, size_t z_len,
                            float *y, size_t y_len);

/* x = x + K*y and P = P - K*H*P, with the gain K = P*H^T*S^-1 of S = H*P*H^T + R.
   S ends as the lower factor of that sum. Refusal YURGAMYSH_PIVOT leaves x, P, K, temp_S_inv,
   temp_PHt and temp_KHP as lent, temp_HP as H*P, and S as yurgamysh_cholesky_decompose_lower leaves
   it. An infinity or a NaN on the diagonal of R is always refused so.
   Refusal YURGAMYSH_NOT_FINITE (900), where some entry of the new x or P is an infinity or a NaN,
   leaves x and P as lent, and S, K, temp_S_inv, temp_HP, temp_PHt and temp_KHP as the accepted call
   would. An infinity or a NaN in y is always refused so, unless a pivot is refused first.
   Sizes: 0 n, 1 m. Buffers: 0 x, 1 P, 2 H, 3 R, 4 y, 5 S, 6 K, 7 temp_S_inv, 8 temp_HP, 9 temp_PHt,
   10 temp_KHP. */
size_t yurgamysh_update(size_t n, size_t m,
                        float *x, size_t x_len,
                        float *p, size_t p_len,
                        const float *h, size_t h_len,
                        const float *r, size_t r_len,
                        const float *y, size_t y_len,
                        float *s, size_t s_len,
                        float *k, size_t k_len,
                        float *temp_s_inv, size_t temp_s_inv_len,
                        float *temp_hp, size_t temp_hp_len,
                        float *temp_pht, size_t temp_pht_len,
                        float *temp_khp, size_t temp_khp_len);

/* The innovation of z, and then the update. Refusals YURGAMYSH_PIVOT and YURGAMYSH_NOT_FINITE leave y
   as z - H*x and the rest as the update does: x and P are as lent. The readings do not enter S, so no
   pivot tells a bad one: an infinity or a NaN in z is always refused with YURGAMYSH_NOT_FINITE, unless
   a pivot is refused first. Sizes: 0 n, 1 m. Buffers: 0 x, 1 P, 2 H, 3 z, 4 R, 5 y, 6 S, 7 K,
   8 temp_S_inv, 9 temp_HP, 10 temp_PHt, 11 temp_KHP. */
size_t yurgamysh_correct(size_t n, size_t m,
                         float *x, size_t x_len,
                         float *p, size_t p_len,
                         const float *h, size_t h_len,
                         const float *z, size_t z_len,
                         const float *r, size_t r_len,
                         float *y, size_t y_len,
                         float *s, size_t s_len,
                         float *k, size_t k_len,
                         float *temp_s_inv, size_t temp_s_inv_len,
                         float *temp_hp, size_t temp_hp_len,
                         float *temp_pht, size_t temp_pht_len,
                         float *temp_khp, size_t temp_khp_len);

/* ---- One yarn, by a record. The bits are those of the filter at n = m = 1, with no room to work in.

   x, p    the estimate, and its spread
   a, q    the model, and the spread that a step adds
   h, r    how the reading sees x, and the reading's spread
   blind   how many corrections were refused in a row, for whoever minds the feeder. 0: the last
           correction was accepted, or there was none yet; 255: that many or more. It goes up for a
           bad reading, and for any reading where the record's own numbers are bad

   A record has 28 bytes, aligned as a float is: the floats at 0, 4, 8, 12, 16 and 20, blind at 24, and
   three bytes of padding. Feeders may stand in an array: a call touches the one that it is given, and
   those over a row, below, touch all of them. */
typedef struct yurgamysh_one_state {
    float x;
    float p;
    float a;
    float q;
    float h;
    float r;
    uint8_t blind;
} yurgamysh_one_state;

/* The record of these numbers, with no correction refused yet: blind is 0. */
static inline yurgamysh_one_state yurgamysh_one_state_new(float x, float p, float a, float q, float h,
                                                          float r) {
    yurgamysh_one_state yarn = {x, p, a, q, h, r, 0};
    return yarn;
}

/* x = a*x, p = a*p*a + q; a, q, h, r and blind stay. Nothing comes back, since nothing is refused:
   what is not finite is not tested here, as in yurgamysh_predict. */
void yurgamysh_one_state_predict(yurgamysh_one_state *yarn);

/* x and p as the reading z moves them, and blind 0; a, q, h and r stay. Refusal YURGAMYSH_PIVOT (400),
   and YURGAMYSH_NOT_FINITE (900), where the new x or p is an infinity or a NaN (so is x wherever z is
   one), write blind alone: one up, and 255 stays 255. Every other byte of the record is as lent. */
size_t yurgamysh_one_state_correct(yurgamysh_one_state *yarn, float z);

/* ---- A row of feeders: up to YURGAMYSH_MAX_FEEDERS records that stand in an array, in one call.

   Each record ends as the call of one record leaves it, these being made from the first to the last;
   only its padding is not decided after a call that is done. Refusals YURGAMYSH_SIZE (100), where
   there are more than twelve feeders, and then YURGAMYSH_SHORT (201), where the readings are fewer
   than the feeders, leave every byte as lent. Size 0: feeders_len. Buffers: 0 feeders, 1 readings. */

/* What became of a row's corrections: 16 bytes, aligned as a size_t is. */
typedef struct yurgamysh_counts {
    /* How many feeders were accepted. */
    size_t accepted;
    /* The index of the first that was refused, or the number of feeders where none was. */
    size_t first_refused;
} yurgamysh_counts;

/* yurgamysh_one_state_predict of every feeder. What is not finite is not tested here either. */
size_t yurgamysh_feeders_predict(yurgamysh_one_state *feeders, size_t feeders_len);

/* yurgamysh_one_state_correct of every feeder, each by the reading of its own index. A feeder that is
   refused keeps its six floats, and its blind goes one up, where 255 stays 255; those after it go on,
   and the answer is 0 all the same. What became of them is in *counts, which is written only where the
   answer is 0; which others were refused, blind tells: it is 0 exactly where the feeder was accepted.
   With no feeders both counts are 0. Readings past the last feeder's are not read. */
size_t yurgamysh_feeders_correct(yurgamysh_one_state *feeders, size_t feeders_len,
                                 const float *readings, size_t readings_len,
                                 yurgamysh_counts *counts);

/* ---- Settings cards: a model as a text, both sizes and the matrices A, Q, H and R of the filter.

   A card has seven lines, each ended by a newline (byte 10), and no byte behind the last newline. A
   line is its key and its value, with nothing before, between or behind:

     line   key             value             such as
     1      edition=        a count           edition=1
     2      states=         a count, n        states=2
     3      observations=   a count, m        observations=1
     4      a=              n*n entries       a=3f800000,3f800000,00000000,3f800000
     5      q=              n*n entries       q=3f800000,00000000,00000000,3f800000
     6      h=              m*n entries       h=3f800000,00000000
     7      r=              m*m entries       r=41000000

   A count is one decimal digit, or two of which the first is not 0. An entry is the pattern of one
   float in exactly eight hexadecimal digits, 0 to 9 and a to f, the highest first: 3f800000 is 1.
   Entries stand row after row, with one comma between two of them.

   How long a card is goes by n and m alone: 40 bytes, one for each digit of n and of m, and 9 for each
   of its n*n + n*n + m*n + m*m entries. That of (1, 1) has 78 bytes, and that of (16, 16) has
   YURGAMYSH_MAX_CARD, which are the most. */

/* The card's matrices in the fronts of a, q, h and r, n in *states and m in *observations. The pattern
   of a NaN comes as a NaN, every other as its float: infinities and NaN are taken here. x and P are no
   part of a card. Any refusal leaves every buffer, *states and *observations as lent.

   The card is judged from the top, and the first thing that is wrong decides, whatever stands below:
   - YURGAMYSH_LINE (501 to 507): this line is not as the table says. It is missing, is another line,
     is spelt otherwise, has another number of entries, or lacks its newline. An empty card is 501;
   - YURGAMYSH_EDITION (600): line 1 is as the table says, and its count is not 1;
   - YURGAMYSH_SIZE (100, 101): line 2, or line 3, is as the table says, and its count is not 1 to 16;
   - YURGAMYSH_LINE (508): something stands behind line 7;
   - YURGAMYSH_SHORT (200 to 203): the whole card is right, and this buffer is too short for it.

   Bytes past card_len are not read. Sizes: 0 states, 1 observations, as the card says them. Buffers:
   0 a, 1 q, 2 h, 3 r. */
size_t yurgamysh_card_read(const uint8_t *card, size_t card_len,
                           float *a, size_t a_len,
                           float *q, size_t q_len,
                           float *h, size_t h_len,
                           float *r, size_t r_len,
                           size_t *states, size_t *observations);

/* The card of so many states and observations, and of the matrices in the fronts of a, q, h and r: it
   stands in the front of card, and its length in *length. It ends with the newline of line 7, with no
   byte 0 behind it; what lies past it in card is never changed.

   Each entry is the pattern of its float, so -0 is 80000000; but a NaN, whatever its sign and payload,
   is 7fc00000. What is written here yurgamysh_card_read takes, and gives back both sizes and the same
   floats, bit for bit, a NaN as a NaN. A card that was taken there is written again byte by byte, but
   for 7fc00000 in the places of other NaN patterns.

   Any refusal leaves every byte of card, and *length, as lent. They are tested in this order:
   - YURGAMYSH_SIZE (100, 101): states, or observations, is not 1 to 16;
   - YURGAMYSH_SHORT (200 to 203): this buffer is shorter than its matrix;
   - YURGAMYSH_SHORT (204): card_len is below the card's length. Bytes that just hold it are enough.

   Sizes: 0 states, 1 observations. Buffers: 0 a, 1 q, 2 h, 3 r, 4 card. */
size_t yurgamysh_card_write(size_t states, size_t observations,
                            const float *a, size_t a_len,
                            const float *q, size_t q_len,
                            const float *h, size_t h_len,
                            const float *r, size_t r_len,
                            uint8_t *card, size_t card_len,
                            size_t *length);

/* How long the card of so many states and observations is, in *length, which is written only where the
   answer is 0. Refused are the sizes alone, YURGAMYSH_SIZE (100, 101). Sizes: 0 states,
   1 observations. */
size_t yurgamysh_card_length(size_t states, size_t observations, size_t *length);

/* ---- Decomposition and inverse */

/* The lower Cholesky factor of the symmetric n by n matrix t, in t; the strict upper triangle ends
   as +0. Only the upper triangle and the diagonal are read. Refusal YURGAMYSH_PIVOT at i leaves the
   columns before i of the lower triangle done, (i, i) as the refused pivot times the reciprocal of
   the root before it (times +0 where i is 0, so [infinity] leaves NaN), and every other cell as lent.
   Size 0: n. Buffer 0: t. */
size_t yurgamysh_cholesky_decompose_lower(size_t n, float *t, size_t t_len);

/* The inverse of L*L^T from its lower factor L; the strict upper triangle of l is not read.
   Size 0: n. Buffers: 0 l, 1 inv. */
size_t yurgamysh_invert_l_cholesky(size_t n,
                                   const float *l, size_t l_len,
                                   float *inv, size_t inv_len);

/* ---- Cells of a rows by cols (or n by n) matrix m. Sizes: 0 rows, 1 cols (or 0 n). Buffer 0: m. */

/* The number in (row, column), in *value, which is written only where the answer is 0. */
size_t yurgamysh_get(size_t rows, size_t cols,
                     const float *m, size_t m_len,
                     size_t row, size_t column, float *value);

/* value in (row, column). */
size_t yurgamysh_set(size_t rows, size_t cols,
                     float *m, size_t m_len,
                     size_t row, size_t column, float value);

/* value in (row, column) and in (column, row). */
size_t yurgamysh_set_symmetric(size_t n,
                               float *m, size_t m_len,
                               size_t row, size_t column, float value);

/* A row, in the first cols floats of row_data (buffer 1). */
size_t yurgamysh_get_row_copy(size_t rows, size_t cols,
                              const float *m, size_t m_len,
                              size_t row,
                              float *row_data, size_t row_data_len);

/* A column, in the first rows floats of column_data (buffer 1). A column that is out of range
   carries 1, as everywhere. */
size_t yurgamysh_get_column_copy(size_t rows, size_t cols,
                                 const float *m, size_t m_len,
                                 size_t column,
                                 float *column_data, size_t column_data_len);

/* The whole matrix, in the first rows*cols floats of target (buffer 1). */
size_t yurgamysh_copy_to(size_t rows, size_t cols,
                         const float *m, size_t m_len,
                         float *target, size_t target_len);

/* x in every cell. */
size_t yurgamysh_set_all(size_t rows, size_t cols, float *m, size_t m_len, float x);

/* +0 in every cell. */
size_t yurgamysh_set_zero(size_t rows, size_t cols, float *m, size_t m_len);

/* value on the diagonal; the other cells stay. */
size_t yurgamysh_set_diagonal_to_scalar(size_t n, float *m, size_t m_len, float value);

/* diagonal on the diagonal, +0 elsewhere. */
size_t yurgamysh_make_scalar(size_t n, float *m, size_t m_len, float diagonal);

/* 1 on the diagonal, +0 elsewhere. */
size_t yurgamysh_make_identity(size_t n, float *m, size_t m_len);

/* diagonal on the diagonal, off_diagonal elsewhere. */
size_t yurgamysh_make_comatrix(size_t n, float *m, size_t m_len,
                               float diagonal, float off_diagonal);

/* ---- Products: a of rows by inner. Sizes: 0 rows, 1 inner, 2 cols (row vectors have no cols).
   Buffers: 0 a, 1 b or x, 2 c. Totals are summed from the left, each step rounded once, nothing
   fused. */

/* c = a*b, b of inner by cols and c of rows by cols. */
size_t yurgamysh_mult(size_t rows, size_t inner, size_t cols,
                      const float *a, size_t a_len,
                      const float *b, size_t b_len,
                      float *c, size_t c_len);

/* c = a*b; baux, of inner floats (buffer 3), ends with column 0 of b. */
size_t yurgamysh_mult_buffered(size_t rows, size_t inner, size_t cols,
                               const float *a, size_t a_len,
                               const float *b, size_t b_len,
                               float *c, size_t c_len,
                               float *baux, size_t baux_len);

/* c = a*b^T, b of cols by inner. */
size_t yurgamysh_mult_transb(size_t rows, size_t inner, size_t cols,
                             const float *a, size_t a_len,
                             const float *b, size_t b_len,
                             float *c, size_t c_len);

/* c = c + a*b^T, b of cols by inner. */
size_t yurgamysh_multadd_transb(size_t rows, size_t inner, size_t cols,
                                const float *a, size_t a_len,
                                const float *b, size_t b_len,
                                float *c, size_t c_len);

/* c = (a*b^T)*scale, b of cols by inner. */
size_t yurgamysh_multscale_transb(size_t rows, size_t inner, size_t cols,
                                  const float *a, size_t a_len,
                                  const float *b, size_t b_len,
                                  float scale,
                                  float *c, size_t c_len);

/* c = a*x, x of inner floats and c of rows floats. */
size_t yurgamysh_mult_rowvector(size_t rows, size_t inner,
                                const float *a, size_t a_len,
                                const float *x, size_t x_len,
                                float *c, size_t c_len);

/* c = c + a*x. */
size_t yurgamysh_multadd_rowvector(size_t rows, size_t inner,
                                   const float *a, size_t a_len,
                                   const float *x, size_t x_len,
                                   float *c, size_t c_len);

/* ---- Sums and differences, all of rows by cols. Sizes: 0 rows, 1 cols. Buffers: 0 a, 1 b, 2 c. */

/* c = a - b. */
size_t yurgamysh_sub(size_t rows, size_t cols,
                     const float *a, size_t a_len,
                     const float *b, size_t b_len,
                     float *c, size_t c_len);

/* a = a - b. */
size_t yurgamysh_sub_inplace_a(size_t rows, size_t cols,
                               float *a, size_t a_len,
                               const float *b, size_t b_len);

/* b = a - b. */
size_t yurgamysh_sub_inplace_b(size_t rows, size_t cols,
                               const float *a, size_t a_len,
                               float *b, size_t b_len);

/* a = a + b. */
size_t yurgamysh_add_inplace_a(size_t rows, size_t cols,
                               float *a, size_t a_len,
                               const float *b, size_t b_len);

/* b = a + b. */
size_t yurgamysh_add_inplace_b(size_t rows, size_t cols,
                               const float *a, size_t a_len,
                               float *b, size_t b_len);

/* ---- Numbers */

/* The root of x, the nearest float; NaN for NaN and for anything below zero, -0 for -0. */
float yurgamysh_square_root(float x);

/* 1/v, rounded once. */
float yurgamysh_recip(float v);

#ifdef __cplusplus
}
#endif

#endif
