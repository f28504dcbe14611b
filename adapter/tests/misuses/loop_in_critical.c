// E11 HoldsCritical: a loop in a critical region without a name, reached through a function.
// words: #pragma omp for schedule(dynamic, inside of #pragma omp critical
#include "../check.h"

static int done[20];

__attribute__((noinline)) static void loop(void) {
#pragma omp for schedule(dynamic) nowait
    for (int i = 0; i < 20; i++)
        COUNT(done[i]);
}

int main(void) {
#pragma omp parallel
    {
#pragma omp critical
        loop();
    }
    check_each(done, 20, 1, "iteration");
    return told();
}
