// A cancellation point answers whether the region is cancelled: who meets one after a cancellation leaves there, also if it is a
// cancel with a false clause. A region that nobody cancels is whole.
// environment: OMP_CANCELLATION=true
// steps: cancel parallel 0, cancel parallel 1, point parallel
#include "../check.h"

int main(void) {
    for (int round = 0; round < 20; round++) {
        int none = 0, cancelled = 0, behind = 0, turns = 0;
#pragma omp parallel
        {
#pragma omp cancellation point parallel
            COUNT(none);
#pragma omp cancel parallel if (asked() < 0)
            COUNT(none);
        }
        CHECK(none == 2 * asked(), "%d", none);
#pragma omp parallel
        {
            if (omp_get_thread_num() == 0) {
                __atomic_store_n(&cancelled, 1, __ATOMIC_SEQ_CST);
#pragma omp cancel parallel
                COUNT(behind);
            }
            while (!__atomic_load_n(&cancelled, __ATOMIC_SEQ_CST))
                sched_yield();
            // it comes, sooner or later
            for (;;) {
                COUNT(turns);
                if (round % 2) {
#pragma omp cancellation point parallel
                } else {
#pragma omp cancel parallel if (asked() < 0)
                }
                usleep(50);
            }
            COUNT(behind);
        }
        CHECK(behind == 0, "%d went on", behind);
        CHECK(turns >= asked() - 1, "%d", turns);
    }
    return told();
}
