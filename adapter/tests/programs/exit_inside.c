// A member ends the program in a region, while others wait at a barrier: its status is the program's.
// status: 5
// steps: barrier|region_end|loop dynamic 1
#include "../check.h"

int main(void) {
#pragma omp parallel
    {
#pragma omp for schedule(dynamic)
        for (int i = 0; i < 100; i++)
            CHECK(i >= 0, "%d", i);
        if (omp_get_thread_num() == omp_get_num_threads() / 2) {
            usleep(30000);
            exit(told() ? 1 : 5);
        }
#pragma omp barrier
    }
    return 1;
}
