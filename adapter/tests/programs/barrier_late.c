// Barriers at which one member comes late, each time another, while the others wait.
// steps: barrier
#include "../check.h"

int main(void) {
    int value = 0;
#pragma omp parallel
    for (int round = 0; round < 6; round++) {
        if (omp_get_thread_num() == round * 5 % omp_get_num_threads()) {
            usleep(15000);
            value = round + 1;
        }
#pragma omp barrier
        CHECK(value == round + 1, "round %d: it is %d", round, value);
#pragma omp barrier
    }
    return told();
}
