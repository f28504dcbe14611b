// task reduction: one in a loop; gcc calls GOMP_loop_start with more words, which is served else.
#include "../check.h"

int main(void) {
    int sum = 0;
#pragma omp parallel
    {
#pragma omp for reduction(task, + : sum) schedule(dynamic)
        for (int i = 0; i < 20; i++)
            sum++;
    }
    CHECK(sum == 20, "%d", sum);
    return told();
}
