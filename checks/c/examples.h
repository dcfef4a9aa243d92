/* The worked examples whose numbers stand in the rules themselves. */
#ifndef EXAMPLES_H
#define EXAMPLES_H

#include <stddef.h>

/* Runs them, prints each that differs, stores their count, and gives the count that differ. */
size_t run_examples(size_t *count);

#endif
