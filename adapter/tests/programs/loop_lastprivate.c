// lastprivate: the value of the last iteration, whoever did it; with firstprivate too, before which gcc puts a barrier.
// steps: loop dynamic 3, loop guided 1, barrier
#include "../check.h"

int main(void) {
    for (int round = 0; round < 5; round++) {
        int dynamic = -1, guided = -1, both = 100, ordered = -1, runtime = -1, combined = 100;
        long index = -1;
#pragma omp parallel
        {
#pragma omp for schedule(dynamic, 3) lastprivate(dynamic)
            for (int i = 0; i < 100; i++)
                dynamic = i;
#pragma omp for schedule(guided) lastprivate(guided) nowait
            for (int i = 0; i < 100; i += 3)
                guided = i;
#pragma omp for schedule(dynamic, 3) firstprivate(both) lastprivate(both)
            for (int i = 0; i < 100; i++) {
                CHECK(both >= 100, "it is %d", both);
                both = 100 + i;
            }
#pragma omp for schedule(runtime) lastprivate(runtime, index)
            for (index = 50; index > 0; index -= 2)
                runtime = (int)index;
#pragma omp for schedule(static, 3) ordered lastprivate(ordered)
            for (int i = 0; i < 100; i++)
#pragma omp ordered
                ordered = i;
        }
#pragma omp parallel for schedule(dynamic, 3) firstprivate(combined) lastprivate(combined)
        for (int i = 0; i < 100; i++) {
            CHECK(combined >= 100, "it is %d", combined);
            combined = 100 + i;
        }
        CHECK(dynamic == 99 && guided == 99 && both == 199, "%d %d %d", dynamic, guided, both);
        CHECK(runtime == 2 && index == 0, "%d %ld", runtime, index);
        CHECK(ordered == 99 && combined == 199, "%d %d", ordered, combined);
    }
    return told();
}
