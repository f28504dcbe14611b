// #pragma omp single copyprivate: the ninth work-share that is open in a cancelled region, since a member has left. libgomp 12
// hangs.
// environment: OMP_CANCELLATION=true
#include "../check.h"

int main(void) {
    int sum = 0;
#pragma omp parallel
    {
        int word = 0;
        if (omp_get_thread_num() == 0) {
#pragma omp cancel parallel
        }
        for (int k = 0; k < 8; k++) {
#pragma omp single nowait
            COUNT(sum);
        }
#pragma omp single copyprivate(word)
        word = 1;
        sum += word;
    }
    CHECK(sum <= 8, "%d", sum);
    return told();
}
