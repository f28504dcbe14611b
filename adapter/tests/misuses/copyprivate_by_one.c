// E35 Mismatch: a single has copyprivate at one member only.
// words: #pragma omp single
#include "../check.h"

__attribute__((noinline)) static int copied(void) {
    int value = 0;
#pragma omp single copyprivate(value)
    value = 5;
    return value;
}

__attribute__((noinline)) static int plain(int *singles) {
#pragma omp single
    COUNT(*singles);
    return 5;
}

int main(void) {
    int singles = 0;
#pragma omp parallel
    {
        int value = omp_get_thread_num() == 1 ? copied() : plain(&singles);
        CHECK(value == 5, "it is %d", value);
    }
    CHECK(singles == 1, "%d singles", singles);
    return told();
}
