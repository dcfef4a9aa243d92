#include "model.h"

#include <math.h>

enum { MOST_STATES = 16 };

/* The processor's root is the nearest float, as IEEE 754 asks. */
float model_square_root(float x) { return sqrtf(x); }

void model_copy(size_t cells, const float *from, float *to) {
    size_t i;
    for (i = 0; i < cells; i++)
        to[i] = from[i];
}

void model_comatrix(size_t n, float *m, float diagonal, float off_diagonal) {
    size_t r, c;
    for (r = 0; r < n; r++)
        for (c = 0; c < n; c++)
            m[r * n + c] = r == c ? diagonal : off_diagonal;
}

void model_mult(size_t rows, size_t inner, size_t cols, const float *a, const float *b, float *c) {
    size_t i, j, k;
    for (i = 0; i < rows; i++)
        for (j = 0; j < cols; j++) {
            float total = 0.0f;
            for (k = 0; k < inner; k++)
                total += a[i * inner + k] * b[k * cols + j];
            c[i * cols + j] = total;
        }
}

void model_mult_transb(size_t rows, size_t inner, size_t cols, const float *a, const float *b,
                       float *c) {
    size_t i, j, k;
    for (i = 0; i < rows; i++)
        for (j = 0; j < cols; j++) {
            float total = 0.0f;
            for (k = 0; k < inner; k++)
                total += a[i * inner + k] * b[j * inner + k];
            c[i * cols + j] = total;
        }
}

/* The total starts with the first product, not with zero. */
void model_mult_rowvector(size_t rows, size_t inner, const float *a, const float *x, float *c) {
    size_t i, k;
    for (i = 0; i < rows; i++) {
        float total = a[i * inner] * x[0];
        for (k = 1; k < inner; k++)
            total += a[i * inner + k] * x[k];
        c[i] = total;
    }
}

void model_sum(size_t cells, const float *a, float sign, const float *b, float *c) {
    size_t i;
    for (i = 0; i < cells; i++)
        c[i] = sign > 0.0f ? a[i] + b[i] : a[i] - b[i];
}

size_t model_decompose(size_t n, float *t) {
    size_t i, j, k;
    float d = 0.0f;
    for (i = 0; i < n; i++)
        for (j = i; j < n; j++) {
            float sum = t[i * n + j];
            for (k = 0; k < i; k++)
                sum -= t[i * n + k] * t[j * n + k];
            if (j > i) {
                t[j * n + i] = sum * d;
            } else if (sum > 0.0f && sum < INFINITY) {
                t[i * n + i] = model_square_root(sum);
                d = 1.0f / t[i * n + i];
            } else {
                t[i * n + i] = sum * d;
                return i;
            }
        }
    for (i = 0; i < n; i++)
        for (j = i + 1; j < n; j++)
            t[i * n + j] = 0.0f;
    return n;
}

void model_invert(size_t n, const float *l, float *inv) {
    size_t i, j, k;
    for (i = 0; i < n; i++)
        for (j = 0; j <= i; j++) {
            float sum = i == j ? 1.0f : 0.0f;
            if (j < i) {
                float inner = -l[i * n + j] * inv[j * n + j];
                for (k = j + 1; k < i; k++)
                    inner += -l[i * n + k] * inv[j * n + k];
                sum += inner;
            }
            inv[j * n + i] = sum * (1.0f / l[i * n + i]);
        }
    for (i = n; i-- > 0;)
        for (j = 0; j <= i; j++) {
            float sum = inv[j * n + i];
            if (i + 1 < n) {
                float inner = -l[(i + 1) * n + i] * inv[j * n + i + 1];
                for (k = i + 2; k < n; k++)
                    inner += -l[k * n + i] * inv[j * n + k];
                sum += inner;
            }
            inv[i * n + j] = inv[j * n + i] = sum * (1.0f / l[i * n + i]);
        }
}

void model_predict_x(size_t n, float *x, const float *a, float *predicted_x) {
    model_mult_rowvector(n, n, a, x, predicted_x);
    model_copy(n, predicted_x, x);
}

void model_predict_p(size_t n, const float *a, float *p, const float *q, float *temp_p) {
    model_mult(n, n, n, a, p, temp_p);
    model_mult_transb(n, n, n, temp_p, a, p);
    model_sum(n * n, p, 1.0f, q, p);
}

void model_innovation(size_t n, size_t m, const float *x, const float *h, const float *z,
                      float *y) {
    model_mult_rowvector(m, n, h, x, y);
    model_sum(m, z, -1.0f, y, y);
}

static int all_finite(size_t cells, const float *at) {
    size_t i;
    for (i = 0; i < cells; i++)
        if (!(fabsf(at[i]) < INFINITY))
            return 0;
    return 1;
}

size_t model_update(size_t n, size_t m, float *x, float *p, const float *h, const float *r,
                    const float *y, float *s, float *k, float *temp_s_inv, float *temp_hp,
                    float *temp_pht, float *temp_khp) {
    float new_x[MOST_STATES], new_p[MOST_STATES * MOST_STATES];
    size_t pivot;
    model_mult(m, n, n, h, p, temp_hp);
    model_mult_transb(m, n, m, temp_hp, h, s);
    model_sum(m * m, s, 1.0f, r, s);
    pivot = model_decompose(m, s);
    if (pivot < m)
        return 400 + pivot;
    model_invert(m, s, temp_s_inv);
    model_mult_transb(n, n, m, p, h, temp_pht);
    model_mult(n, m, m, temp_pht, temp_s_inv, k);
    model_mult_rowvector(n, m, k, y, new_x);
    model_sum(n, x, 1.0f, new_x, new_x);
    model_mult(n, m, n, k, temp_hp, temp_khp);
    model_sum(n * n, p, -1.0f, temp_khp, new_p);
    if (!all_finite(n, new_x) || !all_finite(n * n, new_p))
        return 900;
    model_copy(n, new_x, x);
    model_copy(n * n, new_p, p);
    return 0;
}
