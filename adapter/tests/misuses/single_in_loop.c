// E8 InsideShare: a single in a loop, reached through a function.
// words: #pragma omp single
#include "../check.h"

__attribute__((noinline)) static void once(int *count) {
#pragma omp single nowait
    COUNT(*count);
}

int main(void) {
    int done[8] = {0}, singles = 0;
#pragma omp parallel
    {
#pragma omp for schedule(dynamic)
        for (int i = 0; i < 8; i++) {
            COUNT(done[i]);
            once(&singles);
        }
    }
    check_each(done, 8, 1, "iteration");
    CHECK(singles == 8, "%d singles", singles);
    return told();
}
