// 75 deadlock: a member is eight singles ahead and waits to start the ninth; the others skip them and wait at a barrier.
// words: #pragma omp single, #pragma omp barrier
#include "../check.h"

__attribute__((noinline)) static void singles(int *count) {
    for (int round = 0; round < 12; round++) {
#pragma omp single nowait
        COUNT(*count);
    }
}

int main(void) {
    int count = 0;
#pragma omp parallel
    {
        if (omp_get_thread_num() == 0)
            singles(&count);
#pragma omp barrier
    }
    CHECK(count == 12, "%d singles", count);
    return told();
}
