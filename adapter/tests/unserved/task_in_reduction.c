// GOMP_taskgroup_reduction_register: a taskgroup with a reduction.
#include "../check.h"

int main(void) {
    int sum = 0;
#pragma omp parallel
    {
#pragma omp single
        {
#pragma omp taskgroup task_reduction(+ : sum)
            for (int k = 0; k < 10; k++)
#pragma omp task in_reduction(+ : sum)
                sum += k;
        }
    }
    CHECK(sum == 45, "%d", sum);
    return told();
}
