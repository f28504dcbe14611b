// A hundred thousand tasks of one region.
// threads: 1 4 16
// steps: task, task_end
#include "../check.h"

#define MOST 100000

int main(void) {
    static unsigned char done[MOST];
    int count = 0, wrong = 0;
#pragma omp parallel
    {
#pragma omp single
        for (int k = 0; k < MOST; k++)
#pragma omp task
        {
            done[k]++;
            COUNT(count);
        }
#pragma omp for reduction(+ : wrong)
        for (int k = 0; k < MOST; k++)
            wrong += done[k] != 1;
    }
    CHECK(count == MOST && wrong == 0, "%d tasks, %d wrong ones", count, wrong);
    return told();
}
