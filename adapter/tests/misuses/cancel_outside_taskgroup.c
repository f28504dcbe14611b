// E24 NoGroup: a task cancels a taskgroup, and is in none.
// environment: OMP_CANCELLATION=true
// words: #pragma omp cancel taskgroup, no taskgroup
#include "../check.h"

static int done;

__attribute__((noinline)) static void create(void) {
#pragma omp task
    {
        COUNT(done);
#pragma omp cancel taskgroup
    }
}

int main(void) {
#pragma omp parallel
#pragma omp single
    for (int k = 0; k < 10; k++)
        create();
    CHECK(done > 0, "%d", done);
    return told();
}
