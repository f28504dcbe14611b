// #pragma omp cancel for: a loop is cancelled, which OMP_CANCELLATION turns on. Both loops begin by the same call with the same words; only
// the calls at their ends, which no member makes before its first chunk is answered, tell which of them has a barrier and may be cancelled.
// environment: OMP_CANCELLATION=true
#include "../check.h"

int main(void) {
    int done = 0, passed = 0;
#pragma omp parallel
    {
#pragma omp for schedule(dynamic) nowait
        for (int i = 0; i < 20000; i++)
            COUNT(passed);
#pragma omp for schedule(dynamic)
        for (int i = 0; i < 20000; i++) {
            COUNT(done);
#pragma omp cancel for
        }
    }
    CHECK(done < 20000, "%d iterations", done);
    CHECK(passed == 20000, "%d iterations", passed);
    return told();
}
