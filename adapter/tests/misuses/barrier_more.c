// E35 Mismatch: a member meets one barrier more.
// words: #pragma omp barrier|end of the parallel region
#include "../check.h"

__attribute__((noinline)) static void meet(void) {
#pragma omp barrier
}

int main(void) {
    int arrived = 0;
#pragma omp parallel
    {
        meet();
        COUNT(arrived);
        if (omp_get_thread_num() == 2)
            meet();
    }
    CHECK(arrived == asked(), "%d", arrived);
    return told();
}
