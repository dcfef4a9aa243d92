/* Stands in the place of filters.cpp where Eigen is not there: no filter is made, and none is called. */
#include <stdbool.h>
#include <stddef.h>

void *eigen_new(bool fixed, const void *from) { return NULL; }

void eigen_free(void *filter) {}

bool eigen_predict(void *filter, size_t count) { return false; }

bool eigen_correct(void *filter, size_t count) { return false; }

bool eigen_chain(void *filter, size_t count) { return false; }

void eigen_read(const void *filter, float *x, float *p) {}
