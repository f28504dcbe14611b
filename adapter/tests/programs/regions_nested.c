// Regions in a region, two levels: each inner team is one of its own.
// environment: OMP_MAX_ACTIVE_LEVELS=2
// steps: region_end, loop dynamic 2, barrier, sections 3
#include "../check.h"

int main(void) {
    int n = asked(), outer[64] = {0}, inner[64][3] = {{0}}, done[64][30] = {{0}}, sections[64][3] = {{0}}, behind[10] = {0};
#pragma omp parallel
    {
        int me = omp_get_thread_num();
        COUNT(outer[me]);
#pragma omp for schedule(dynamic) nowait
        for (int i = 0; i < 10; i++)
            CHECK(omp_get_level() == 1, "%d", omp_get_level());
#pragma omp parallel num_threads(3)
        {
            int it = omp_get_thread_num();
            COUNT(inner[me][it]);
            CHECK(omp_get_num_threads() == 3, "%d members", omp_get_num_threads());
            CHECK(omp_get_level() == 2 && omp_get_active_level() == (n > 1) + 1, "%d %d", omp_get_level(), omp_get_active_level());
            CHECK(omp_get_ancestor_thread_num(1) == me, "%d", omp_get_ancestor_thread_num(1));
            CHECK(omp_get_team_size(1) == n && omp_get_team_size(2) == 3, "%d %d", omp_get_team_size(1), omp_get_team_size(2));
#pragma omp for schedule(dynamic, 2)
            for (int i = 0; i < 30; i++)
                COUNT(done[me][i]);
#pragma omp sections
            {
#pragma omp section
                COUNT(sections[me][0]);
#pragma omp section
                COUNT(sections[me][1]);
#pragma omp section
                COUNT(sections[me][2]);
            }
        }
        CHECK(omp_get_thread_num() == me && omp_get_num_threads() == n && omp_get_level() == 1, "behind the inner region");
#pragma omp barrier
        check_each(done[me], 30, 1, "iteration");
#pragma omp for schedule(guided)
        for (int i = 0; i < 10; i++)
            COUNT(behind[i]);
    }
    check_each(outer, n, 1, "member");
    check_each(behind, 10, 1, "iteration behind the inner regions");
    for (int k = 0; k < n; k++) {
        check_each(inner[k], 3, 1, "inner member");
        check_each(sections[k], 3, 1, "section");
    }
    return told();
}
