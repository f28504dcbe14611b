// E8 InsideShare: a barrier in a loop, reached through a function.
// words: #pragma omp barrier
#include "../check.h"

__attribute__((noinline)) static void meet(void) {
#pragma omp barrier
}

int main(void) {
    int done[10] = {0};
#pragma omp parallel
    {
#pragma omp for schedule(dynamic)
        for (int i = 0; i < 10; i++) {
            COUNT(done[i]);
            if (i == 3)
                meet();
        }
    }
    check_each(done, 10, 1, "iteration");
    return told();
}
