// The routines that set: each member has its own settings, which a region inherits and which end with it.
// steps: region_end
#include "../check.h"

int main(void) {
    omp_sched_t kind;
    int chunk, n = asked();
    omp_get_schedule(&kind, &chunk);
    CHECK((kind & ~omp_sched_monotonic) == omp_sched_dynamic, "%d", (int)kind);
    CHECK(omp_get_dynamic() == 0, "%d", omp_get_dynamic());
    omp_set_dynamic(1);
    CHECK(omp_get_dynamic() == 1, "%d", omp_get_dynamic());
    omp_set_dynamic(0);
    CHECK(omp_get_dynamic() == 0, "%d", omp_get_dynamic());
    omp_set_max_active_levels(3);
    CHECK(omp_get_max_active_levels() == 3, "%d", omp_get_max_active_levels());
    omp_set_max_active_levels(-1);
    CHECK(omp_get_max_active_levels() == 3, "%d", omp_get_max_active_levels());
    omp_set_max_active_levels(1);
    omp_set_num_threads(3);
    CHECK(omp_get_max_threads() == 3, "%d", omp_get_max_threads());
#pragma omp parallel num_threads(n)
    {
        CHECK(omp_get_max_threads() == 3, "%d", omp_get_max_threads());
        omp_set_num_threads(10 + omp_get_thread_num());
        omp_set_schedule(omp_sched_static, 4);
#pragma omp barrier
        CHECK(omp_get_max_threads() == 10 + omp_get_thread_num(), "%d", omp_get_max_threads());
        omp_sched_t own;
        int own_chunk;
        omp_get_schedule(&own, &own_chunk);
        CHECK((own & ~omp_sched_monotonic) == omp_sched_static && own_chunk == 4, "%d %d", (int)own, own_chunk);
    }
    CHECK(omp_get_max_threads() == 3, "%d", omp_get_max_threads());
    int members = 0;
#pragma omp parallel
    COUNT(members);
    CHECK(members == 3, "%d", members);
    omp_set_schedule(omp_sched_guided, 6);
    omp_get_schedule(&kind, &chunk);
    CHECK((kind & ~omp_sched_monotonic) == omp_sched_guided && chunk == 6, "%d %d", (int)kind, chunk);
    omp_set_schedule(omp_sched_dynamic, 0);
    omp_get_schedule(&kind, &chunk);
    CHECK((kind & ~omp_sched_monotonic) == omp_sched_dynamic && chunk == 1, "%d %d", (int)kind, chunk);
#pragma omp parallel num_threads(2)
    {
#pragma omp parallel num_threads(2)
        CHECK(omp_get_num_threads() == 1, "%d", omp_get_num_threads());
    }
    omp_set_max_active_levels(2);
#pragma omp parallel num_threads(2)
    {
#pragma omp parallel num_threads(2)
        CHECK(omp_get_num_threads() == 2 && omp_get_active_level() == 2, "%d", omp_get_num_threads());
    }
    return told();
}
