// A region is cancelled while others wait at a barrier, or come to it later: none passes the barrier, and the region's end waits
// for all. A later region is whole.
// environment: OMP_CANCELLATION=true
// steps: cancel parallel 1, barrier, region_end
#include "../check.h"

#define ROUNDS 40

int main(void) {
    CHECK(omp_get_cancellation(), "it is off");
    for (int round = 0; round < ROUNDS; round++) {
        int before = 0, passed = 0, behind = 0, after = 0;
#pragma omp parallel
        {
            int member = omp_get_thread_num();
            COUNT(before);
#pragma omp barrier
            if (member == round % omp_get_num_threads()) {
                if (round % 3 == 0)
                    usleep(300);
#pragma omp cancel parallel
                COUNT(behind);
            }
            if (round % 3 == 1)
                usleep(200);
#pragma omp barrier
            COUNT(passed);
#pragma omp barrier
            COUNT(passed);
        }
        CHECK(before == asked(), "%d members came", before);
        CHECK(passed == 0 && behind == 0, "round %d: %d passed the barrier, %d went on", round, passed, behind);
#pragma omp parallel
        {
            COUNT(after);
#pragma omp barrier
            CHECK(after == asked(), "%d", after);
        }
    }
    return told();
}
