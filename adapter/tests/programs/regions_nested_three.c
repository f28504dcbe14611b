// Three levels, teams of 2, with a list of sizes in OMP_NUM_THREADS; each level's loops are its own.
// threads: 2
// environment: OMP_NUM_THREADS=2,3,2 OMP_MAX_ACTIVE_LEVELS=3
// steps: region_end, loop dynamic 1, loop guided 1
#include "../check.h"

int main(void) {
    int done[2][3][12] = {{{0}}}, members = 0;
#pragma omp parallel
    {
        int one = omp_get_thread_num();
        CHECK(omp_get_num_threads() == 2 && omp_get_max_threads() == 3, "%d, %d", omp_get_num_threads(), omp_get_max_threads());
#pragma omp parallel
        {
            int two = omp_get_thread_num();
            CHECK(omp_get_num_threads() == 3 && omp_get_max_threads() == 2, "%d, %d", omp_get_num_threads(), omp_get_max_threads());
#pragma omp parallel
            {
                CHECK(omp_get_num_threads() == 2 && omp_get_level() == 3, "%d members", omp_get_num_threads());
                COUNT(members);
#pragma omp for schedule(dynamic)
                for (int i = 0; i < 12; i++)
                    COUNT(done[one][two][i]);
            }
#pragma omp for schedule(guided)
            for (int i = 0; i < 12; i++)
                COUNT(done[one][two][i]);
        }
    }
    CHECK(members == 12, "%d members", members);
    for (int one = 0; one < 2; one++)
        for (int i = 0; i < 12; i++) {
            int guided = 0;
            for (int two = 0; two < 3; two++)
                guided += done[one][two][i];
            CHECK(guided == 4, "%d, iteration %d: %d times", one, i, guided);
        }
    return told();
}
