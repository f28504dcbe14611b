// OMP_THREAD_LIMIT bounds the members of a team, num_threads and nested regions too.
// threads: 8
// environment: OMP_THREAD_LIMIT=3 OMP_MAX_ACTIVE_LEVELS=2
// steps: region_end, loop dynamic 1
#include "../check.h"

int main(void) {
    int members = 0, done[20] = {0}, inner = 0;
    CHECK(omp_get_thread_limit() == 3, "%d", omp_get_thread_limit());
#pragma omp parallel
    {
        COUNT(members);
#pragma omp for schedule(dynamic)
        for (int i = 0; i < 20; i++)
            COUNT(done[i]);
    }
    check_each(done, 20, 1, "iteration");
    CHECK(members == 3, "%d members", members);
    members = 0;
#pragma omp parallel num_threads(50)
    COUNT(members);
    CHECK(members == 3, "%d members", members);
#pragma omp parallel num_threads(2)
    {
#pragma omp parallel num_threads(2)
        {
            COUNT(inner);
            usleep(20000);
        }
    }
    CHECK(inner == 3 || inner == 4, "%d inner members", inner);
    return told();
}
