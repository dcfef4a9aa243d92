#include "yurgamysh.h"

#include <math.h>
#include <stdio.h>

int main(void) {
    const float readings[] = {36.5f, NAN, NAN, NAN, 36.0f};
    yurgamysh_one_state feeder = yurgamysh_one_state_new(35, 9, 1, 0.5f, 1, 4);
    size_t i;
    for (i = 0; i < sizeof readings / sizeof readings[0]; i++) {
        yurgamysh_one_state_predict(&feeder);
        yurgamysh_one_state_correct(&feeder, readings[i]);
        printf("%.2f cN, blind %d%s\n", feeder.x, feeder.blind, feeder.blind < 3 ? "" : ": see to it");
    }
    return 0;
}
