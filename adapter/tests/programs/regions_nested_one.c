// A region in a region with one active level: the inner team has one member, and its constructs are its own.
// environment: OMP_MAX_ACTIVE_LEVELS=1
// steps: region_end, loop dynamic 1, single, barrier
#include "../check.h"

int main(void) {
    int n = asked(), singles = 0, rounds[64] = {0}, inner = 0;
#pragma omp parallel
    {
        int me = omp_get_thread_num();
#pragma omp parallel num_threads(4)
        {
            CHECK(omp_get_num_threads() == (n > 1 ? 1 : 4), "%d members", omp_get_num_threads());
            COUNT(inner);
#pragma omp for schedule(dynamic)
            for (int i = 0; i < 5; i++)
                COUNT(rounds[me]);
#pragma omp single
            COUNT(singles);
#pragma omp barrier
        }
#pragma omp barrier
    }
    check_each(rounds, n, 5, "member");
    CHECK(singles == n && inner == (n > 1 ? n : 4), "%d singles, %d members", singles, inner);
    return told();
}
