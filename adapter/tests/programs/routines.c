// The routines that ask, in a region and outside: numbers, sizes, levels, limits.
// steps: region_end
#include "../check.h"

int main(void) {
    int n = asked();
    CHECK(omp_get_thread_num() == 0 && omp_get_num_threads() == 1, "%d of %d", omp_get_thread_num(), omp_get_num_threads());
    CHECK(omp_get_max_threads() == n, "%d", omp_get_max_threads());
    CHECK(!omp_in_parallel() && omp_get_level() == 0 && omp_get_active_level() == 0, "outside of a region");
    CHECK(omp_get_ancestor_thread_num(0) == 0 && omp_get_team_size(0) == 1, "level 0");
    CHECK(omp_get_ancestor_thread_num(1) == -1 && omp_get_team_size(1) == -1, "level 1, outside");
    CHECK(omp_get_ancestor_thread_num(-1) == -1 && omp_get_team_size(-1) == -1, "level -1");
    CHECK(omp_get_num_procs() >= 1, "%d", omp_get_num_procs());
    CHECK(omp_get_thread_limit() >= 64, "%d", omp_get_thread_limit());
    CHECK(omp_get_supported_active_levels() >= omp_get_max_active_levels(), "%d", omp_get_supported_active_levels());
    CHECK(!omp_in_final() && omp_is_initial_device() && omp_get_num_teams() == 1 && omp_get_team_num() == 0, "tasks and teams");
    CHECK(omp_get_cancellation() == 0, "%d", omp_get_cancellation());
    double begun = omp_get_wtime(), later;
    do
        later = omp_get_wtime();
    while (later == begun);
    CHECK(later > begun && omp_get_wtick() > 0 && omp_get_wtick() < 1, "%f %f", later - begun, omp_get_wtick());
#pragma omp parallel
    {
        int me = omp_get_thread_num();
        CHECK(me >= 0 && me < n && omp_get_num_threads() == n, "%d of %d", me, omp_get_num_threads());
        CHECK(omp_in_parallel() == (n > 1), "%d", omp_in_parallel());
        CHECK(omp_get_level() == 1 && omp_get_active_level() == (n > 1), "%d %d", omp_get_level(), omp_get_active_level());
        CHECK(omp_get_ancestor_thread_num(0) == 0 && omp_get_ancestor_thread_num(1) == me, "ancestors");
        CHECK(omp_get_ancestor_thread_num(2) == -1 && omp_get_team_size(2) == -1, "level 2");
        CHECK(omp_get_team_size(0) == 1 && omp_get_team_size(1) == n, "%d", omp_get_team_size(1));
        CHECK(omp_get_max_threads() == n, "%d", omp_get_max_threads());
    }
#pragma omp parallel if (0)
    {
        CHECK(!omp_in_parallel() && omp_get_level() == 1 && omp_get_active_level() == 0, "a region of one");
        CHECK(omp_get_team_size(1) == 1, "%d", omp_get_team_size(1));
    }
    CHECK(omp_get_level() == 0 && omp_get_thread_num() == 0 && omp_get_num_threads() == 1, "behind the regions");
    return told();
}
