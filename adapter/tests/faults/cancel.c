// A region that its only member cancels, after a barrier.
#include "../check.h"

int main(void) {
    int behind = 0;
#pragma omp parallel num_threads(1)
    {
#pragma omp cancel parallel if (asked() < 0)
#pragma omp barrier
#pragma omp cancel parallel
        COUNT(behind);
    }
    return behind;
}
