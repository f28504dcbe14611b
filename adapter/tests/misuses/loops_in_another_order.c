// E35 Mismatch: two loops in another order, whose shapes differ.
// words: #pragma omp for
#include "../check.h"

__attribute__((noinline)) static void first(int *done) {
#pragma omp for schedule(dynamic) nowait
    for (int i = 0; i < 100; i++)
        COUNT(done[i]);
}

__attribute__((noinline)) static void second(int *done) {
#pragma omp for schedule(dynamic) nowait
    for (int i = 0; i < 80; i++)
        COUNT(done[i]);
}

int main(void) {
    int one[100] = {0}, two[80] = {0};
#pragma omp parallel
    if (omp_get_thread_num() == 1) {
        second(two);
        first(one);
    } else {
        first(one);
        second(two);
    }
    check_each(one, 100, 1, "iteration of the first loop");
    check_each(two, 80, 1, "iteration of the second loop");
    return told();
}
