// E8 InsideShare: a barrier in a single with copyprivate, reached through a function.
// words: #pragma omp barrier
#include "../check.h"

__attribute__((noinline)) static void meet(void) {
#pragma omp barrier
}

int main(void) {
#pragma omp parallel
    {
        int value = 0;
#pragma omp single copyprivate(value)
        {
            meet();
            value = 4;
        }
        CHECK(value == 4, "it is %d", value);
    }
    return told();
}
