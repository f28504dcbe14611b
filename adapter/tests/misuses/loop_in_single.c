// E35 Mismatch: a loop in the body of a single, reached through a function.
// words: #pragma omp for|#pragma omp barrier
#include "../check.h"

__attribute__((noinline)) static void loop(int *done) {
#pragma omp for schedule(dynamic)
    for (int i = 0; i < 10; i++)
        COUNT(done[i]);
}

int main(void) {
    int done[10] = {0};
#pragma omp parallel
    {
#pragma omp single
        loop(done);
    }
    check_each(done, 10, 1, "iteration");
    return told();
}
