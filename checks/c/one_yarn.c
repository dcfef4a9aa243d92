#include "yurgamysh.h"

#include <stdio.h>

int main(void) {
    float x[1] = {1}, p[1] = {3}, y[1], s[1], k[1], s_inv[1], hp[1], pht[1], khp[1];
    const float h[1] = {1}, r[1] = {1}, z[1] = {5};
    size_t code = yurgamysh_correct(1, 1, x, 1, p, 1, h, 1, z, 1, r, 1, y, 1, s, 1, k, 1,
                                    s_inv, 1, hp, 1, pht, 1, khp, 1);
    switch (yurgamysh_answer_of(code)) {
    case YURGAMYSH_DONE:
        printf("x is %g, P is %g\n", x[0], p[0]);
        return 0;
    case YURGAMYSH_PIVOT:
        printf("pivot %zu is refused: x and P stay\n", yurgamysh_carried_by(code));
        return 1;
    default:
        printf("refused with %zu\n", code);
        return 1;
    }
}
