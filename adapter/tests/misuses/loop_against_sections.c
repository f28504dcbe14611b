// E35 Mismatch: one member is in a loop, another in sections.
// words: #pragma omp for|#pragma omp sections
#include "../check.h"

__attribute__((noinline)) static void loop(int *done) {
#pragma omp for schedule(dynamic)
    for (int i = 0; i < 4; i++)
        COUNT(done[i]);
}

__attribute__((noinline)) static void sections(int *done) {
#pragma omp sections
    {
#pragma omp section
        COUNT(done[4]);
#pragma omp section
        COUNT(done[5]);
    }
}

int main(void) {
    int done[6] = {0};
#pragma omp parallel
    if (omp_get_thread_num() == 1)
        sections(done);
    else
        loop(done);
    check_each(done, 4, 1, "iteration");
    check_each(done + 4, 2, 1, "section");
    return told();
}
