// The size of a team: num_threads, if, omp_set_num_threads, in each order.
// steps: region_end
#include "../check.h"

static void region_of(int size, bool holds, int expected) {
    int members = 0;
#pragma omp parallel num_threads(size) if (holds)
    {
        CHECK(omp_get_num_threads() == expected, "%d members, not %d", omp_get_num_threads(), expected);
        CHECK(omp_in_parallel() == (expected > 1), "it is %d", omp_in_parallel());
        COUNT(members);
#pragma omp for schedule(dynamic)
        for (int i = 0; i < 10; i++)
            CHECK(omp_get_thread_num() < expected, "member %d", omp_get_thread_num());
    }
    CHECK(members == expected, "%d members, not %d", members, expected);
}

int main(void) {
    region_of(3, true, 3);
    region_of(1, true, 1);
    region_of(5, false, 1);
    region_of(64, true, 64);
    for (int size = 1; size <= 9; size++) {
        omp_set_num_threads(size);
        CHECK(omp_get_max_threads() == size, "%d", omp_get_max_threads());
        int members = 0;
#pragma omp parallel
        COUNT(members);
        CHECK(members == size, "%d members, not %d", members, size);
        region_of(2, true, 2);
    }
    return told();
}
