// Many regions in a row, of differing sizes; each has its own team.
// steps: region_end, loop dynamic 1, barrier
#include "../check.h"

int main(void) {
    int counts[64] = {0}, done[20] = {0};
    for (int round = 0; round < 60; round++) {
        int size = 1 + round * 7 % asked();
#pragma omp parallel num_threads(size)
        {
            COUNT(counts[omp_get_thread_num()]);
#pragma omp for schedule(dynamic)
            for (int i = 0; i < 20; i++)
                COUNT(done[i]);
        }
        check_each(counts, size, 1, "member");
        check_each(done, 20, 1, "iteration");
    }
    for (int round = 0; round < 100; round++) {
        int members = 0;
#pragma omp parallel num_threads(2)
        COUNT(members);
        CHECK(members == 2, "%d members", members);
    }
    return told();
}
