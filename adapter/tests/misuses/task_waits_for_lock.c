// 75: a member waits for a task with a lock that the task waits for.
// words: deadlock, omp_set_lock of lock 0, executing #pragma omp task, holding lock 0, lock 0 is held by, this task
#include "../check.h"

int main(void) {
    int count = 0;
    omp_lock_t lock;
    omp_init_lock(&lock);
#pragma omp parallel
    {
#pragma omp single
        {
            omp_set_lock(&lock);
#pragma omp task
            {
                omp_set_lock(&lock);
                count++;
                omp_unset_lock(&lock);
            }
#pragma omp taskwait
            omp_unset_lock(&lock);
        }
    }
    CHECK(count == 1, "%d", count);
    return told();
}
