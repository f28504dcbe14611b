// E8 InsideShare: a barrier in an ordered part, reached through a function.
// words: #pragma omp barrier
#include "../check.h"

__attribute__((noinline)) static void meet(void) {
#pragma omp barrier
}

int main(void) {
    int done[10] = {0};
#pragma omp parallel
    {
#pragma omp for schedule(dynamic) ordered
        for (int i = 0; i < 10; i++) {
#pragma omp ordered
            {
                COUNT(done[i]);
                meet();
            }
        }
    }
    check_each(done, 10, 1, "iteration");
    return told();
}
