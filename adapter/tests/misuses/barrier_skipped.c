// E35 Mismatch: a member skips a barrier.
// words: #pragma omp barrier|end of the parallel region
#include "../check.h"

int main(void) {
    int arrived = 0;
#pragma omp parallel
    {
        COUNT(arrived);
        if (omp_get_thread_num() != 1) {
#pragma omp barrier
        }
    }
    CHECK(arrived == asked(), "%d", arrived);
    return told();
}
