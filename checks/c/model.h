/* The rules in plain loops, each sum in its order, for the tests to compare with. Sizes fit, and no
   two buffers overlap. */
#ifndef MODEL_H
#define MODEL_H

#include <stddef.h>

#ifdef __cplusplus
extern "C" {
#endif

float model_square_root(float x);
void model_copy(size_t cells, const float *from, float *to);
void model_comatrix(size_t n, float *m, float diagonal, float off_diagonal);
void model_mult(size_t rows, size_t inner, size_t cols, const float *a, const float *b, float *c);
void model_mult_transb(size_t rows, size_t inner, size_t cols, const float *a, const float *b,
                       float *c);
void model_mult_rowvector(size_t rows, size_t inner, const float *a, const float *x, float *c);
/* c = a + sign*b, sign being 1 or -1. */
void model_sum(size_t cells, const float *a, float sign, const float *b, float *c);
/* n, or the first pivot that is not above zero, or not finite. */
size_t model_decompose(size_t n, float *t);
void model_invert(size_t n, const float *l, float *inv);
void model_predict_x(size_t n, float *x, const float *a, float *predicted_x);
void model_predict_p(size_t n, const float *a, float *p, const float *q, float *temp_p);
void model_innovation(size_t n, size_t m, const float *x, const float *h, const float *z, float *y);
/* The code: 0; 400 and the first pivot of S that is not above zero, or not finite; 900 where some
   entry of the new x or P is not finite. Refused, x and P stay. */
size_t model_update(size_t n, size_t m, float *x, float *p, const float *h, const float *r,
                    const float *y, float *s, float *k, float *temp_s_inv, float *temp_hp,
                    float *temp_pht, float *temp_khp);

#ifdef __cplusplus
}
#endif

#endif
