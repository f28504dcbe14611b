// E8 InsideShare: a loop in a loop, reached through a function.
// words: #pragma omp for
#include "../check.h"

__attribute__((noinline)) static void inner(int *done) {
#pragma omp for schedule(dynamic)
    for (int i = 0; i < 10; i++)
        COUNT(done[i]);
}

int main(void) {
    int outer[8] = {0}, done[10] = {0};
#pragma omp parallel
    {
#pragma omp for schedule(dynamic)
        for (int i = 0; i < 8; i++) {
            COUNT(outer[i]);
            inner(done);
        }
    }
    check_each(outer, 8, 1, "outer iteration");
    check_each(done, 10, 8, "inner iteration");
    return told();
}
