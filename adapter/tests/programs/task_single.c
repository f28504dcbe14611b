// Tasks that a single creates in a loop: done once each, and all of them once the single's barrier is passed.
// steps: single, task, task_end, barrier|region_end
#include "../check.h"

#define MOST 300

int main(void) {
    int done[MOST] = {0}, rounds = 3;
    long sum = 0;
#pragma omp parallel
    for (int round = 0; round < rounds; round++) {
#pragma omp single
        for (int k = 0; k < MOST; k++)
#pragma omp task
        {
            CHECK(omp_get_thread_num() < omp_get_num_threads() && omp_get_level() == 1, "member %d", omp_get_thread_num());
            COUNT(done[k]);
#pragma omp atomic
            sum += k;
        }
        CHECK(sum == (round + 1L) * MOST * (MOST - 1) / 2, "round %d: %ld", round, sum);
#pragma omp barrier
    }
    check_each(done, MOST, rounds, "task");
#pragma omp parallel
    {
#pragma omp master
        for (int k = 0; k < MOST; k++)
#pragma omp task
            COUNT(done[k]);
    }
    check_each(done, MOST, 1, "task of the region's end");
    return told();
}
