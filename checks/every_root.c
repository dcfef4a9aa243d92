/* Compares yurgamysh_square_root with the processor's root (sqrtss), and yurgamysh_recip with the
   processor's 1/v (divss), on every bit pattern of a range. Any NaN equals any other NaN.

   every_root FROM COUNT: the patterns from FROM on, COUNT of them; with no words, all 2^32.
   every_root --loop: those above zero and finite, linked with a root whose loop is spoilt
   (checks/every_root.sh): a root that differs is one that took the loop, so these are counted and
   not told, and the reciprocals are left alone.
   every_root --time FROM COUNT: compares nothing, and says how many nanoseconds a root of these
   patterns takes, one after another: the least of some times.

   Two threads take every second pattern each. Prints the first differences, the counts and the
   seconds, and exits with 1 where anything differs that should not. */
#include <inttypes.h>
#include <pthread.h>
#include <stdint.h>
#include <stdio.h>
#include <stdlib.h>
#include <string.h>
#include <time.h>
#include <xmmintrin.h>

#define PATTERNS UINT64_C(4294967296)
#define THREADS 2
#define TIMES 15
#define PASSES 64
#define LEAST_NORMAL UINT32_C(0x00800000)
#define INFINITE UINT32_C(0x7f800000)

float yurgamysh_square_root(float x);
float yurgamysh_recip(float v);

struct part {
    int number;
    uint64_t from, end;
    uint64_t roots, root_differs, recips, recip_differs;
    uint64_t looped, looped_subnormal;
};

static float of_bits(uint32_t b) {
    float x;
    memcpy(&x, &b, sizeof x);
    return x;
}

static uint32_t bits_of(float x) {
    uint32_t b;
    memcpy(&b, &x, sizeof b);
    return b;
}

static int is_nan(uint32_t b) { return (b & 0x7fffffffu) > 0x7f800000u; }

static int same(uint32_t a, uint32_t b) { return a == b || (is_nan(a) && is_nan(b)); }

static float processor_root(float x) { return _mm_cvtss_f32(_mm_sqrt_ss(_mm_set_ss(x))); }

static float processor_recip(float v) {
    return _mm_cvtss_f32(_mm_div_ss(_mm_set_ss(1.0f), _mm_set_ss(v)));
}

static double seconds(void) {
    struct timespec t;
    clock_gettime(CLOCK_MONOTONIC, &t);
    return (double)t.tv_sec + (double)t.tv_nsec / 1e9;
}

static void tell(const char *what, uint64_t differs, uint32_t arg, uint32_t found, uint32_t want) {
    if (differs <= 5)
        printf("%s of %08" PRIx32 ": found %08" PRIx32 ", expected %08" PRIx32 "\n", what, arg,
               found, want);
}

static void *compare(void *given) {
    struct part *p = given;
    uint64_t all = (p->end - p->from + THREADS - 1 - p->number) / THREADS;
    uint64_t report = all / 8 + 1, next = report;
    for (uint64_t i = p->from + p->number; i < p->end; i += THREADS) {
        uint32_t arg = (uint32_t)i;
        float x = of_bits(arg);
        uint32_t found = bits_of(yurgamysh_square_root(x)), want = bits_of(processor_root(x));
        p->roots++;
        if (!same(found, want))
            tell("root", ++p->root_differs, arg, found, want);
        found = bits_of(yurgamysh_recip(x));
        want = bits_of(processor_recip(x));
        p->recips++;
        if (!same(found, want))
            tell("reciprocal", ++p->recip_differs, arg, found, want);
        if (p->roots == next) {
            printf("thread %d: %" PRIu64 " of %" PRIu64 "\n", p->number + 1, next, all);
            fflush(stdout);
            next += report;
        }
    }
    return NULL;
}

/* With a spoilt loop: how many roots differ, and how many of these are of subnormal numbers. */
static void *count_looped(void *given) {
    struct part *p = given;
    for (uint64_t i = p->from + p->number; i < p->end; i += THREADS) {
        uint32_t arg = (uint32_t)i;
        float x = of_bits(arg);
        if (!same(bits_of(yurgamysh_square_root(x)), bits_of(processor_root(x)))) {
            p->looped++;
            p->looped_subnormal += arg < LEAST_NORMAL;
        }
    }
    return NULL;
}

static void tell_time(uint64_t from, uint64_t count) {
    double least = 0;
    for (int k = 0; k < TIMES; k++) {
        volatile uint32_t sink = 0;
        double start = seconds();
        for (int pass = 0; pass < PASSES; pass++)
            for (uint64_t i = from; i < from + count; i++)
                sink += bits_of(yurgamysh_square_root(of_bits((uint32_t)i)));
        double took = seconds() - start;
        if (k == 0 || took < least)
            least = took;
    }
    printf("the %" PRIu64 " patterns from %08" PRIx64 " on: %.1f ns a root, the least of %d times\n",
           count, from, least * 1e9 / ((double)PASSES * (double)count), TIMES);
}

static uint64_t number(const char *word, uint64_t most) {
    char *end;
    uint64_t n = strtoull(word, &end, 0);
    if (*word < '0' || *word > '9' || *end != 0 || n > most) {
        fprintf(stderr, "every_root: %s: not a number from 0 to %" PRIu64 "\n", word, most);
        exit(2);
    }
    return n;
}

int main(int argc, char **argv) {
    int loop = argc == 2 && strcmp(argv[1], "--loop") == 0;
    if (argc == 4 && strcmp(argv[1], "--time") == 0) {
        uint64_t first = number(argv[2], PATTERNS - 1);
        uint64_t some = number(argv[3], PATTERNS - first);
        if (some > 0)
            tell_time(first, some);
        return 0;
    }
    if (argc != 1 && argc != 3 && !loop) {
        fprintf(stderr, "usage: every_root [FROM COUNT | --loop | --time FROM COUNT]\n");
        return 2;
    }
    uint64_t from = argc == 3 ? number(argv[1], PATTERNS) : 0;
    uint64_t count = argc == 3 ? number(argv[2], PATTERNS - from) : PATTERNS;
    if (loop) {
        from = 1;
        count = INFINITE - 1;
    }
    struct part parts[THREADS] = {0};
    pthread_t threads[THREADS];
    double start = seconds();
    for (int k = 0; k < THREADS; k++) {
        parts[k].number = k;
        parts[k].from = from;
        parts[k].end = from + count;
        if (pthread_create(&threads[k], NULL, loop ? count_looped : compare, &parts[k]) != 0) {
            fprintf(stderr, "every_root: no thread\n");
            return 2;
        }
    }
    uint64_t roots = 0, root_differs = 0, recips = 0, recip_differs = 0;
    uint64_t looped = 0, looped_subnormal = 0;
    for (int k = 0; k < THREADS; k++) {
        pthread_join(threads[k], NULL);
        roots += parts[k].roots;
        root_differs += parts[k].root_differs;
        recips += parts[k].recips;
        recip_differs += parts[k].recip_differs;
        looped += parts[k].looped;
        looped_subnormal += parts[k].looped_subnormal;
    }
    double took = seconds() - start;
    if (loop) {
        printf("of %" PRIu64 " numbers above zero and finite, %" PRIu64 " took the loop, "
               "%" PRIu64 " of them subnormal\n", count, looped, looped_subnormal);
        return 0;
    }
    printf("roots: %" PRIu64 " compared, %" PRIu64 " differ\n", roots, root_differs);
    printf("reciprocals: %" PRIu64 " compared, %" PRIu64 " differ\n", recips, recip_differs);
    printf("%.0f seconds\n", took);
    return root_differs != 0 || recip_differs != 0;
}
