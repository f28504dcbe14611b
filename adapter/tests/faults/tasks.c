// Tasks: for engines that answer nonsense to their calls.
#include "../check.h"

int main(void) {
    int count = 0;
#pragma omp parallel num_threads(1)
    {
#pragma omp taskgroup
        for (int k = 0; k < 2; k++)
#pragma omp task
            count++;
#pragma omp taskwait
    }
    return count != 2;
}
