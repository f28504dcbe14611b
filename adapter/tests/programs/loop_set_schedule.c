// Loops whose schedule omp_set_schedule sets; omp_get_schedule answers it, in the region too.
// steps: next, end_nowait
#include "../check.h"

#define ITERATIONS 101

static void with(omp_sched_t kind, int chunk, int chunk_of_static) {
    int done[ITERATIONS] = {0}, owner[ITERATIONS], n = asked();
    omp_set_schedule(kind, chunk);
#pragma omp parallel
    {
        omp_sched_t inside;
        int inside_chunk;
        omp_get_schedule(&inside, &inside_chunk);
        CHECK((inside & ~omp_sched_monotonic) == (kind & ~omp_sched_monotonic), "kind %d, not %d", (int)inside, (int)kind);
        CHECK(chunk < 1 || kind == omp_sched_auto || inside_chunk == chunk, "chunk %d, not %d", inside_chunk, chunk);
#pragma omp for schedule(runtime)
        for (int i = 0; i < ITERATIONS; i++) {
            COUNT(done[i]);
            owner[i] = omp_get_thread_num();
        }
    }
    check_each(done, ITERATIONS, 1, "iteration");
    for (int i = 0; chunk_of_static && i < ITERATIONS; i++)
        CHECK(owner[i] == i / chunk_of_static % n, "iteration %d is member %d's", i, owner[i]);
}

int main(void) {
    with(omp_sched_static, 2, 2);
    with(omp_sched_static, 0, 0);
    with(omp_sched_dynamic, 1, 0);
    with(omp_sched_dynamic, 8, 0);
    with(omp_sched_dynamic, 0, 0);
    with(omp_sched_guided, 3, 0);
    with(omp_sched_guided, -1, 0);
    with(omp_sched_auto, 0, 0);
    with(omp_sched_auto, 4, 0);
    with(omp_sched_static, 5, 5);
    with(omp_sched_dynamic, 1000000, 0);
    with(omp_sched_static | omp_sched_monotonic, 4, 4);
    return told();
}
