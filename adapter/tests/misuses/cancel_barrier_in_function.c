// 75: a region is cancelled, and another member waits at a barrier in a function, from which it cannot leave the region: a
// cancellation point has to stand in the text of the region.
// environment: OMP_CANCELLATION=true
// words: cancelled, #pragma omp barrier, end of the parallel region
#include "../check.h"

static int passed;

__attribute__((noinline)) static void meet(void) {
#pragma omp barrier
    COUNT(passed);
}

int main(void) {
#pragma omp parallel
    {
        if (omp_get_thread_num() == 0) {
#pragma omp cancel parallel
        }
        meet();
    }
    CHECK(passed == 0, "%d passed", passed);
    return told();
}
