// Regions in one another: the inner one is cancelled, and the outer one goes on; the outer one is cancelled while others are in an
// inner one, which is whole.
// threads: 1 2 4 8
// environment: OMP_CANCELLATION=true OMP_MAX_ACTIVE_LEVELS=2
// steps: cancel parallel 1, barrier
#include "../check.h"

static int inner, outer, passed, whole;

int main(void) {
    for (int round = 0; round < 5; round++) {
        inner = outer = passed = whole = 0;
#pragma omp parallel
        {
            int here = 0;
#pragma omp parallel num_threads(3) shared(here)
            {
                COUNT(inner);
                if (omp_get_thread_num() == 0) {
#pragma omp cancel parallel
                    COUNT(passed);
                }
#pragma omp barrier
                COUNT(passed);
                COUNT(here);
            }
            CHECK(here == 0, "%d", here);
            COUNT(outer);
#pragma omp barrier
            CHECK(outer == asked(), "%d", outer);
        }
        CHECK(outer == asked() && inner >= outer && passed == 0, "%d, %d, %d", outer, inner, passed);
        outer = 0;
#pragma omp parallel
        {
            if (omp_get_thread_num() == round % omp_get_num_threads()) {
#pragma omp cancel parallel
                COUNT(passed);
            }
#pragma omp parallel num_threads(2)
            {
                if (round % 2)
                    usleep(200);
#pragma omp barrier
#pragma omp for schedule(dynamic)
                for (int i = 0; i < 10; i++)
                    COUNT(whole);
            }
            COUNT(outer);
#pragma omp barrier
            COUNT(passed);
        }
        CHECK(passed == 0 && outer == asked() - 1 && whole == 10 * outer, "%d, %d, %d", passed, outer, whole);
    }
    return told();
}
