// Each member sets its own schedule in the region, and the loop has it; the one of the program stays.
// steps: loop static 2|loop runtime 0, next
#include "../check.h"

int main(void) {
    int owner[60], n = asked();
    omp_set_schedule(omp_sched_guided, 9);
#pragma omp parallel
    {
        omp_set_schedule(omp_sched_static, 2);
#pragma omp for schedule(runtime)
        for (int i = 0; i < 60; i++)
            owner[i] = omp_get_thread_num();
    }
    omp_sched_t kind;
    int chunk;
    omp_get_schedule(&kind, &chunk);
    CHECK(kind == omp_sched_guided && chunk == 9, "%d %d", (int)kind, chunk);
    for (int i = 0; i < 60; i++)
        CHECK(owner[i] == i / 2 % n, "iteration %d is member %d's", i, owner[i]);
    return told();
}
