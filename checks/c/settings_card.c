#include "yurgamysh.h"

#include <stdio.h>
#include <string.h>

#define MATRICES                                                                                   \
    "a=3f800000,3f800000,00000000,3f800000\n"                                                      \
    "q=3f800000,00000000,00000000,3f800000\n"                                                      \
    "h=3f800000,00000000\n"                                                                        \
    "r=41000000\n"

static float a[4], q[4], h[2], r[1];

/* Whether the card is right, for two states and one observation. If not, the fitter is told. */
static int taken(const char *card) {
    const char *keys[] = {"", "edition", "states", "observations", "a", "q", "h", "r", "the end"};
    const uint8_t *bytes = (const uint8_t *)card;
    size_t n = 0, m = 0;
    size_t code = yurgamysh_card_read(bytes, strlen(card), a, 4, q, 4, h, 2, r, 1, &n, &m);
    size_t line = yurgamysh_carried_by(code);
    if (yurgamysh_answer_of(code) == YURGAMYSH_LINE)
        printf("line %zu: %s is missing or wrong\n", line, keys[line]);
    else if (code != 0)
        printf("refused with %zu\n", code);
    return n == 2 && m == 1;
}

int main(void) {
    float x[2] = {34, 1}, p[4] = {2, 1, 1, 3}, z[1] = {39};
    float new_x[2], y[1], s[1], k[2], s_inv[1], hp[2], pht[2], temp[4];
    taken("edition=1\nobservations=1\nstates=2\n" MATRICES);
    if (!taken("edition=1\nstates=2\nobservations=1\n" MATRICES) ||
        yurgamysh_predict(2, x, 2, a, 4, p, 4, q, 4, new_x, 2, temp, 4) != 0 ||
        yurgamysh_correct(2, 1, x, 2, p, 4, h, 2, z, 1, r, 1, y, 1, s, 1, k, 2, s_inv, 1, hp, 2,
                          pht, 2, temp, 4) != 0)
        return 1;
    printf("x is [%g %g], P is [%g %g; %g %g]\n", x[0], x[1], p[0], p[1], p[2], p[3]);
    return 0;
}
