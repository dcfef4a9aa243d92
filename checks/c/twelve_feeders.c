#include "yurgamysh.h"

#include <math.h>
#include <stdio.h>

enum { FEEDERS = 12, ROUNDS = 4 };

int main(void) {
    const float readings[ROUNDS][FEEDERS] = {
        {36, 35, 37, 36, 34, 36, 35, 37, 36, 35, 36, 34},
        {36, 35, 37, 36, 34, 36, 35, NAN, 36, 35, 36, 34},
        {36, 35, NAN, 36, 34, 36, 35, NAN, 36, 35, 36, 34},
        {36, 35, 37, 36, 34, 36, 35, NAN, 36, 35, NAN, 34},
    };
    yurgamysh_one_state feeders[FEEDERS];
    yurgamysh_counts counts;
    size_t i, round;
    for (i = 0; i < FEEDERS; i++)
        feeders[i] = yurgamysh_one_state_new(35, 9, 1, 0.5f, 1, 4);
    for (round = 0; round < ROUNDS; round++) {
        if (yurgamysh_feeders_predict(feeders, FEEDERS) != 0 ||
            yurgamysh_feeders_correct(feeders, FEEDERS, readings[round], FEEDERS, &counts) != 0)
            return 1;
        printf("round %zu: %zu accepted", round + 1, counts.accepted);
        if (counts.first_refused < FEEDERS)
            printf(", feeder %zu the first refused", counts.first_refused);
        printf("\n");
    }
    for (i = 0; i < FEEDERS; i++)
        if (feeders[i].blind > 0)
            printf("feeder %zu: %.2f cN, blind %d\n", i, feeders[i].x, feeders[i].blind);
    return 0;
}
