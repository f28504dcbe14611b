// E31 NotHolder: a task unsets a lock that the task which created it has set.
// words: omp_unset_lock of lock 0, the task that sets a lock
#include "../check.h"

int main(void) {
    int count = 0;
    omp_lock_t lock;
    omp_init_lock(&lock);
#pragma omp parallel
    {
#pragma omp single
        {
            omp_set_lock(&lock);
#pragma omp task
            {
                count++;
                omp_unset_lock(&lock);
            }
        }
    }
    omp_set_lock(&lock);
    count++;
    omp_unset_lock(&lock);
    CHECK(count == 2, "%d", count);
    return told();
}
