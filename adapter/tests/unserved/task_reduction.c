// GOMP_parallel_reductions: a reduction of tasks.
#include "../check.h"

int main(void) {
    int sum = 0;
#pragma omp parallel reduction(task, + : sum)
    sum++;
    CHECK(sum == asked(), "%d", sum);
    return told();
}
