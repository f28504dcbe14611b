// Singles: with a barrier and without, many in a row; one member executes each.
// steps: single, barrier
#include "../check.h"

#define ROUNDS 30

int main(void) {
    int waited[ROUNDS] = {0}, free_ones[ROUNDS] = {0}, shared = 0;
#pragma omp parallel
    {
        for (int round = 0; round < ROUNDS; round++) {
#pragma omp single nowait
            COUNT(free_ones[round]);
        }
        for (int round = 0; round < ROUNDS / 3; round++) {
#pragma omp single
            {
                COUNT(waited[round]);
                shared = round;
            }
            CHECK(shared == round, "round %d: it is %d", round, shared);
#pragma omp barrier
        }
    }
    check_each(free_ones, ROUNDS, 1, "single without a barrier");
    check_each(waited, ROUNDS / 3, 1, "single");
    return told();
}
