// #pragma omp critical: a critical region on the way out of a cancelled region, where the engine grants no more.
// environment: OMP_CANCELLATION=true
#include "../check.h"

static int count;

static void at_end(int *unused) {
    (void)unused;
#pragma omp critical
    count++;
}

int main(void) {
    int behind = 0;
#pragma omp parallel
    {
        int here __attribute__((cleanup(at_end))) = 0;
#pragma omp cancel parallel
        behind += here + 1;
    }
    CHECK(behind == 0 && count > 0, "%d", count);
    return told();
}
