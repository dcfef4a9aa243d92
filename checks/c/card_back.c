#include "yurgamysh.h"

#include <stdio.h>
#include <string.h>

int main(void) {
    static const uint8_t card[] = "edition=1\nstates=2\nobservations=1\n"
                                  "a=3f800000,3f800000,00000000,3f800000\n"
                                  "q=3f800000,00000000,00000000,3f800000\n"
                                  "h=3f800000,00000000\n"
                                  "r=41000000\n";
    const size_t len = sizeof card - 1; /* the byte 0 is no part of it */
    uint8_t back[YURGAMYSH_MAX_CARD];
    float a[4], q[4], h[2], r[1];
    size_t n, m, length;
    if (yurgamysh_card_read(card, len, a, 4, q, 4, h, 2, r, 1, &n, &m) != 0 ||
        yurgamysh_card_write(n, m, a, 4, q, 4, h, 2, r, 1, back, sizeof back, &length) != 0 ||
        length != len || memcmp(back, card, len) != 0)
        return 1;
    printf("%zu bytes read, and the same written\n", length);
    return 0;
}
