// Tasks of several members, in a region and outside of it: for records.
#include "../check.h"

int main(void) {
    int count = 0;
#pragma omp task shared(count)
    count++;
#pragma omp parallel
    {
#pragma omp taskgroup
        for (int k = 0; k < 5; k++)
#pragma omp task
            COUNT(count);
#pragma omp task
        {
#pragma omp task
            COUNT(count);
#pragma omp taskwait
        }
    }
    return count != 1 + 6 * asked();
}
