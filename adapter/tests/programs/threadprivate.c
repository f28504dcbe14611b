// threadprivate: a member's copy stays from one region to the next of the same size; copyin sets all to the primary's.
// steps: region_end, barrier
#include "../check.h"

static int own = 1;
static double pair[2];
#pragma omp threadprivate(own, pair)

int main(void) {
    omp_set_dynamic(0);
#pragma omp parallel
    own = 100 + omp_get_thread_num();
#pragma omp parallel
    CHECK(own == 100 + omp_get_thread_num(), "it is %d", own);
    own = 5, pair[0] = 1.5, pair[1] = 2.5;
#pragma omp parallel copyin(own, pair)
    {
        CHECK(own == 5 && pair[0] == 1.5 && pair[1] == 2.5, "%d %f %f", own, pair[0], pair[1]);
#pragma omp barrier
        own += omp_get_thread_num();
    }
#pragma omp parallel
    CHECK(own == 5 + omp_get_thread_num(), "it is %d", own);
    CHECK(own == 5, "it is %d", own);
    return told();
}
