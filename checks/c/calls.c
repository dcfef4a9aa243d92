#include "calls.h"

#include "model.h"

#define N (c->size[0])
#define M (c->size[1])
#define ROWS (c->size[0])
#define COLS (c->size[1])
#define INNER (c->size[1])
#define ACROSS (c->size[2])
#define B(k) (c->buffer[k].at)
/* A buffer as the header takes it: the pointer and its length. */
#define LENT(k) c->buffer[k].at, c->buffer[k].len

static size_t fill(const struct call *c, size_t cells, float x) {
    size_t i;
    for (i = 0; i < cells; i++)
        B(0)[i] = x;
    return 0;
}

/* The general filter at n = m = 1 over the record's x, p, a, q, h, r, and its count. */
static size_t one_state(const struct call *c, int corrects) {
    float *record = B(0), room[7];
    unsigned char *blind = (unsigned char *)&record[6];
    size_t code;
    if (!corrects) {
        model_predict_x(1, &record[0], &record[2], &room[0]);
        model_predict_p(1, &record[2], &record[1], &record[3], &room[1]);
        return 0;
    }
    model_innovation(1, 1, &record[0], &record[4], &c->value[0], &room[0]);
    code = model_update(1, 1, &record[0], &record[1], &record[4], &record[5], &room[0], &room[1],
                        &room[2], &room[3], &room[4], &room[5], &room[6]);
    if (code == 0)
        *blind = 0;
    else if (*blind < 255)
        *blind += 1;
    return code;
}

static yurgamysh_one_state *yarn(const struct call *c) {
    return (yurgamysh_one_state *)(void *)B(0);
}

static size_t lib_predict(const struct call *c) {
    return yurgamysh_predict(c->size[0], LENT(0), LENT(1), LENT(2), LENT(3), LENT(4), LENT(5));
}

static size_t rules_predict(const struct call *c) {
    model_predict_x(N, B(0), B(1), B(4));
    model_predict_p(N, B(1), B(2), B(3), B(5));
    return 0;
}

static size_t lib_predict_x(const struct call *c) {
    return yurgamysh_predict_x(c->size[0], LENT(0), LENT(1), LENT(2));
}

static size_t rules_predict_x(const struct call *c) {
    model_predict_x(N, B(0), B(1), B(2));
    return 0;
}

static size_t lib_predict_p(const struct call *c) {
    return yurgamysh_predict_p(c->size[0], LENT(0), LENT(1), LENT(2), LENT(3));
}

static size_t rules_predict_p(const struct call *c) {
    model_predict_p(N, B(0), B(1), B(2), B(3));
    return 0;
}

static size_t lib_innovation(const struct call *c) {
    return yurgamysh_innovation(c->size[0], c->size[1], LENT(0), LENT(1), LENT(2), LENT(3));
}

static size_t rules_innovation(const struct call *c) {
    model_innovation(N, M, B(0), B(1), B(2), B(3));
    return 0;
}

static size_t lib_update(const struct call *c) {
    return yurgamysh_update(c->size[0], c->size[1], LENT(0), LENT(1), LENT(2), LENT(3), LENT(4),
                            LENT(5), LENT(6), LENT(7), LENT(8), LENT(9), LENT(10));
}

static size_t rules_update(const struct call *c) {
    return model_update(N, M, B(0), B(1), B(2), B(3), B(4), B(5), B(6), B(7), B(8), B(9), B(10));
}

static size_t lib_correct(const struct call *c) {
    return yurgamysh_correct(c->size[0], c->size[1], LENT(0), LENT(1), LENT(2), LENT(3), LENT(4),
                             LENT(5), LENT(6), LENT(7), LENT(8), LENT(9), LENT(10), LENT(11));
}

static size_t rules_correct(const struct call *c) {
    model_innovation(N, M, B(0), B(2), B(3), B(5));
    return model_update(N, M, B(0), B(1), B(2), B(4), B(5), B(6), B(7), B(8), B(9), B(10), B(11));
}

static size_t lib_one_state_predict(const struct call *c) {
    yurgamysh_one_state_predict(yarn(c));
    return 0;
}

static size_t rules_one_state_predict(const struct call *c) { return one_state(c, 0); }

static size_t lib_one_state_correct(const struct call *c) {
    return yurgamysh_one_state_correct(yarn(c), c->value[0]);
}

static size_t rules_one_state_correct(const struct call *c) { return one_state(c, 1); }

static size_t lib_cholesky_decompose_lower(const struct call *c) {
    return yurgamysh_cholesky_decompose_lower(c->size[0], LENT(0));
}

static size_t rules_cholesky_decompose_lower(const struct call *c) {
    size_t pivot = model_decompose(N, B(0));
    return pivot < N ? 400 + pivot : 0;
}

static size_t lib_invert_l_cholesky(const struct call *c) {
    return yurgamysh_invert_l_cholesky(c->size[0], LENT(0), LENT(1));
}

static size_t rules_invert_l_cholesky(const struct call *c) {
    model_invert(N, B(0), B(1));
    return 0;
}

static size_t lib_get(const struct call *c) {
    return yurgamysh_get(c->size[0], c->size[1], LENT(0), c->row, c->column, B(1));
}

static size_t rules_get(const struct call *c) {
    *B(1) = B(0)[c->row * COLS + c->column];
    return 0;
}

static size_t lib_set(const struct call *c) {
    return yurgamysh_set(c->size[0], c->size[1], LENT(0), c->row, c->column, c->value[0]);
}

static size_t rules_set(const struct call *c) {
    B(0)[c->row * COLS + c->column] = c->value[0];
    return 0;
}

static size_t lib_set_symmetric(const struct call *c) {
    return yurgamysh_set_symmetric(c->size[0], LENT(0), c->row, c->column, c->value[0]);
}

static size_t rules_set_symmetric(const struct call *c) {
    B(0)[c->row * N + c->column] = B(0)[c->column * N + c->row] = c->value[0];
    return 0;
}

static size_t lib_get_row_copy(const struct call *c) {
    return yurgamysh_get_row_copy(c->size[0], c->size[1], LENT(0), c->row, LENT(1));
}

static size_t rules_get_row_copy(const struct call *c) {
    model_copy(COLS, B(0) + c->row * COLS, B(1));
    return 0;
}

static size_t lib_get_column_copy(const struct call *c) {
    return yurgamysh_get_column_copy(c->size[0], c->size[1], LENT(0), c->column, LENT(1));
}

static size_t rules_get_column_copy(const struct call *c) {
    size_t r;
    for (r = 0; r < ROWS; r++)
        B(1)[r] = B(0)[r * COLS + c->column];
    return 0;
}

static size_t lib_copy_to(const struct call *c) {
    return yurgamysh_copy_to(c->size[0], c->size[1], LENT(0), LENT(1));
}

static size_t rules_copy_to(const struct call *c) {
    model_copy(ROWS * COLS, B(0), B(1));
    return 0;
}

static size_t lib_set_all(const struct call *c) {
    return yurgamysh_set_all(c->size[0], c->size[1], LENT(0), c->value[0]);
}

static size_t rules_set_all(const struct call *c) { return fill(c, ROWS * COLS, c->value[0]); }

static size_t lib_set_zero(const struct call *c) {
    return yurgamysh_set_zero(c->size[0], c->size[1], LENT(0));
}

static size_t rules_set_zero(const struct call *c) { return fill(c, ROWS * COLS, 0.0f); }

static size_t lib_set_diagonal_to_scalar(const struct call *c) {
    return yurgamysh_set_diagonal_to_scalar(c->size[0], LENT(0), c->value[0]);
}

static size_t rules_set_diagonal_to_scalar(const struct call *c) {
    size_t i;
    for (i = 0; i < N; i++)
        B(0)[i * N + i] = c->value[0];
    return 0;
}

static size_t lib_make_scalar(const struct call *c) {
    return yurgamysh_make_scalar(c->size[0], LENT(0), c->value[0]);
}

static size_t rules_make_scalar(const struct call *c) {
    model_comatrix(N, B(0), c->value[0], 0.0f);
    return 0;
}

static size_t lib_make_identity(const struct call *c) {
    return yurgamysh_make_identity(c->size[0], LENT(0));
}

static size_t rules_make_identity(const struct call *c) {
    model_comatrix(N, B(0), 1.0f, 0.0f);
    return 0;
}

static size_t lib_make_comatrix(const struct call *c) {
    return yurgamysh_make_comatrix(c->size[0], LENT(0), c->value[0], c->value[1]);
}

static size_t rules_make_comatrix(const struct call *c) {
    model_comatrix(N, B(0), c->value[0], c->value[1]);
    return 0;
}

static size_t lib_mult(const struct call *c) {
    return yurgamysh_mult(c->size[0], c->size[1], c->size[2], LENT(0), LENT(1), LENT(2));
}

static size_t rules_mult(const struct call *c) {
    model_mult(ROWS, INNER, ACROSS, B(0), B(1), B(2));
    return 0;
}

static size_t lib_mult_buffered(const struct call *c) {
    return yurgamysh_mult_buffered(c->size[0], c->size[1], c->size[2], LENT(0), LENT(1), LENT(2),
                                   LENT(3));
}

static size_t rules_mult_buffered(const struct call *c) {
    size_t k;
    model_mult(ROWS, INNER, ACROSS, B(0), B(1), B(2));
    for (k = 0; k < INNER; k++)
        B(3)[k] = B(1)[k * ACROSS];
    return 0;
}

static size_t lib_mult_transb(const struct call *c) {
    return yurgamysh_mult_transb(c->size[0], c->size[1], c->size[2], LENT(0), LENT(1), LENT(2));
}

static size_t rules_mult_transb(const struct call *c) {
    model_mult_transb(ROWS, INNER, ACROSS, B(0), B(1), B(2));
    return 0;
}

static size_t lib_multadd_transb(const struct call *c) {
    return yurgamysh_multadd_transb(c->size[0], c->size[1], c->size[2], LENT(0), LENT(1), LENT(2));
}

static size_t rules_multadd_transb(const struct call *c) {
    float total[YURGAMYSH_MAX_CELLS];
    model_mult_transb(ROWS, INNER, ACROSS, B(0), B(1), total);
    model_sum(ROWS * ACROSS, B(2), 1.0f, total, B(2));
    return 0;
}

static size_t lib_multscale_transb(const struct call *c) {
    return yurgamysh_multscale_transb(c->size[0], c->size[1], c->size[2], LENT(0), LENT(1),
                                      c->value[0], LENT(2));
}

static size_t rules_multscale_transb(const struct call *c) {
    size_t i;
    model_mult_transb(ROWS, INNER, ACROSS, B(0), B(1), B(2));
    for (i = 0; i < ROWS * ACROSS; i++)
        B(2)[i] *= c->value[0];
    return 0;
}

static size_t lib_mult_rowvector(const struct call *c) {
    return yurgamysh_mult_rowvector(c->size[0], c->size[1], LENT(0), LENT(1), LENT(2));
}

static size_t rules_mult_rowvector(const struct call *c) {
    model_mult_rowvector(ROWS, INNER, B(0), B(1), B(2));
    return 0;
}

static size_t lib_multadd_rowvector(const struct call *c) {
    return yurgamysh_multadd_rowvector(c->size[0], c->size[1], LENT(0), LENT(1), LENT(2));
}

static size_t rules_multadd_rowvector(const struct call *c) {
    float total[YURGAMYSH_MAX_SIZE];
    model_mult_rowvector(ROWS, INNER, B(0), B(1), total);
    model_sum(ROWS, B(2), 1.0f, total, B(2));
    return 0;
}

static size_t lib_sub(const struct call *c) {
    return yurgamysh_sub(c->size[0], c->size[1], LENT(0), LENT(1), LENT(2));
}

static size_t rules_sub(const struct call *c) {
    model_sum(ROWS * COLS, B(0), -1.0f, B(1), B(2));
    return 0;
}

static size_t lib_sub_inplace_a(const struct call *c) {
    return yurgamysh_sub_inplace_a(c->size[0], c->size[1], LENT(0), LENT(1));
}

static size_t rules_sub_inplace_a(const struct call *c) {
    model_sum(ROWS * COLS, B(0), -1.0f, B(1), B(0));
    return 0;
}

static size_t lib_sub_inplace_b(const struct call *c) {
    return yurgamysh_sub_inplace_b(c->size[0], c->size[1], LENT(0), LENT(1));
}

static size_t rules_sub_inplace_b(const struct call *c) {
    model_sum(ROWS * COLS, B(0), -1.0f, B(1), B(1));
    return 0;
}

static size_t lib_add_inplace_a(const struct call *c) {
    return yurgamysh_add_inplace_a(c->size[0], c->size[1], LENT(0), LENT(1));
}

static size_t rules_add_inplace_a(const struct call *c) {
    model_sum(ROWS * COLS, B(0), 1.0f, B(1), B(0));
    return 0;
}

static size_t lib_add_inplace_b(const struct call *c) {
    return yurgamysh_add_inplace_b(c->size[0], c->size[1], LENT(0), LENT(1));
}

static size_t rules_add_inplace_b(const struct call *c) {
    model_sum(ROWS * COLS, B(0), 1.0f, B(1), B(1));
    return 0;
}

/* A row by its name: the sizes, the shapes, who writes, the counted buffers, row, column, pivots. */
#define ROW(name, sizes, shapes, writes, counted, row, column, pivots)                             \
    {#name, sizes, shapes, writes, counted, row, column, pivots, lib_##name, rules_##name}

/* clang-format off */
const struct function functions[] = {
    ROW(predict, 1, "0a0000000a00", "wrwrww", 6, 0, 0, 0),
    ROW(predict_x, 1, "0a000a", "wrw", 3, 0, 0, 0),
    ROW(predict_p, 1, "00000000", "rwrw", 4, 0, 0, 0),
    ROW(innovation, 2, "0a101a1a", "rrrw", 4, 0, 0, 0),
    ROW(update, 2, "0a0010111a110111100100", "kkrrrwwwwww", 11, 0, 0, 1),
    ROW(correct, 2, "0a00101a111a110111100100", "kkrrrwwwwwww", 12, 0, 0, 1),
    ROW(one_state_predict, 0, "ag", "w", 0, 0, 0, 0),
    ROW(one_state_correct, 0, "ag", "k", 0, 0, 0, 1),
    ROW(cholesky_decompose_lower, 1, "00", "w", 1, 0, 0, 1),
    ROW(invert_l_cholesky, 1, "0000", "rw", 2, 0, 0, 0),
    ROW(get, 2, "01aa", "rw", 1, 1, 1, 0),
    ROW(set, 2, "01", "w", 1, 1, 1, 0),
    ROW(set_symmetric, 1, "00", "w", 1, 1, 1, 0),
    ROW(get_row_copy, 2, "011a", "rw", 2, 1, 0, 0),
    ROW(get_column_copy, 2, "010a", "rw", 2, 0, 1, 0),
    ROW(copy_to, 2, "0101", "rw", 2, 0, 0, 0),
    ROW(set_all, 2, "01", "w", 1, 0, 0, 0),
    ROW(set_zero, 2, "01", "w", 1, 0, 0, 0),
    ROW(set_diagonal_to_scalar, 1, "00", "w", 1, 0, 0, 0),
    ROW(make_scalar, 1, "00", "w", 1, 0, 0, 0),
    ROW(make_identity, 1, "00", "w", 1, 0, 0, 0),
    ROW(make_comatrix, 1, "00", "w", 1, 0, 0, 0),
    ROW(mult, 3, "011202", "rrw", 3, 0, 0, 0),
    ROW(mult_buffered, 3, "0112021a", "rrww", 4, 0, 0, 0),
    ROW(mult_transb, 3, "012102", "rrw", 3, 0, 0, 0),
    ROW(multadd_transb, 3, "012102", "rrw", 3, 0, 0, 0),
    ROW(multscale_transb, 3, "012102", "rrw", 3, 0, 0, 0),
    ROW(mult_rowvector, 2, "011a0a", "rrw", 3, 0, 0, 0),
    ROW(multadd_rowvector, 2, "011a0a", "rrw", 3, 0, 0, 0),
    ROW(sub, 2, "010101", "rrw", 3, 0, 0, 0),
    ROW(sub_inplace_a, 2, "0101", "wr", 2, 0, 0, 0),
    ROW(sub_inplace_b, 2, "0101", "rw", 2, 0, 0, 0),
    ROW(add_inplace_a, 2, "0101", "wr", 2, 0, 0, 0),
    ROW(add_inplace_b, 2, "0101", "rw", 2, 0, 0, 0),
};
/* clang-format on */

const size_t function_count = sizeof functions / sizeof functions[0];

static size_t extent(char letter, const struct call *c) {
    return letter >= 'a' ? (size_t)(letter - 'a') + 1 : c->size[letter - '0'];
}

int takes_record(const struct function *f) { return f->shapes[1] == 'g'; }

size_t cells_of(const struct function *f, const struct call *c, size_t k) {
    return extent(f->shapes[2 * k], c) * extent(f->shapes[2 * k + 1], c);
}

size_t gate(const struct function *f, const struct call *c) {
    size_t k;
    for (k = 0; k < f->sizes; k++)
        if (c->size[k] == 0 || c->size[k] > YURGAMYSH_MAX_SIZE)
            return 100 + k;
    for (k = 0; k < f->counted; k++)
        if (c->buffer[k].len < cells_of(f, c, k))
            return 200 + k;
    if (f->has_row && c->row >= c->size[0])
        return 300;
    if (f->has_column && c->column >= c->size[f->sizes - 1])
        return 301;
    return 0;
}
