// E11 HoldsCritical: a single in a critical region, reached through a function.
// words: #pragma omp single, inside of #pragma omp critical (once)
#include "../check.h"

static int done;

__attribute__((noinline)) static void once(void) {
#pragma omp single nowait
    COUNT(done);
}

int main(void) {
#pragma omp parallel
    {
#pragma omp critical(once)
        once();
    }
    CHECK(done == 1, "%d", done);
    return told();
}
