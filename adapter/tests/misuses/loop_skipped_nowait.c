// E35 Mismatch: a member skips a loop that has no barrier; the next loop shows it.
// words: #pragma omp for
#include "../check.h"

__attribute__((noinline)) static void loop(int *done) {
#pragma omp for schedule(dynamic) nowait
    for (int i = 0; i < 100; i++)
        COUNT(done[i]);
}

int main(void) {
    int first[100] = {0}, second[90] = {0};
#pragma omp parallel
    {
        if (omp_get_thread_num() != 1)
            loop(first);
#pragma omp for schedule(dynamic) nowait
        for (int i = 0; i < 90; i++)
            COUNT(second[i]);
    }
    check_each(first, 100, 1, "iteration of the first loop");
    check_each(second, 90, 1, "iteration of the second loop");
    return told();
}
