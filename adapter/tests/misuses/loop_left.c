// E8 InsideShare: a loop is left by longjmp, and then comes a barrier.
// words: #pragma omp barrier|end of the parallel region
#include "../check.h"
#include <setjmp.h>

__attribute__((noinline)) static void loop(jmp_buf *back, int *done) {
#pragma omp for schedule(dynamic) nowait
    for (int i = 0; i < 100; i++) {
        COUNT(done[i]);
        if (i == 5)
            longjmp(*back, 1);
        usleep(200);
    }
}

__attribute__((noinline)) static void search(int *done) {
    jmp_buf back;
    if (!setjmp(back))
        loop(&back, done);
}

int main(void) {
    int done[100] = {0};
#pragma omp parallel
    {
        search(done);
#pragma omp barrier
    }
    check_each(done, 100, 1, "iteration");
    return told();
}
