// 75: a task ends with a lock set, which nobody else may unset, and another task waits for the lock.
// words: deadlock, omp_set_lock of lock 0, ended with lock 0 set, left set by a task that has ended
// lacks: holding lock 0
#include "../check.h"

int main(void) {
    int count = 0;
    omp_lock_t lock;
    omp_init_lock(&lock);
#pragma omp parallel
    {
#pragma omp single
        {
#pragma omp task
            {
                omp_set_lock(&lock);
                count++;
            }
#pragma omp taskwait
#pragma omp task
            {
                omp_set_lock(&lock);
                count++;
                omp_unset_lock(&lock);
            }
        }
    }
    CHECK(count == 2, "%d", count);
    return told();
}
