// E31 NotHolder: a task sets a nestable lock twice, unsets it once and ends; its creator unsets it again.
// threads: 1
// words: omp_unset_nest_lock of lock 1, holding lock 0, ended with lock 1 set
// lacks: holding lock 1
#include "../check.h"

int main(void) {
    int count = 0;
    omp_lock_t own;
    omp_nest_lock_t lock;
    omp_init_lock(&own);
    omp_init_nest_lock(&lock);
#pragma omp parallel
    {
        omp_set_lock(&own);
#pragma omp task
        {
            omp_set_nest_lock(&lock);
            omp_set_nest_lock(&lock);
            omp_unset_nest_lock(&lock);
            count++;
        }
#pragma omp taskwait
        omp_unset_nest_lock(&lock);
        omp_unset_lock(&own);
    }
    CHECK(count == 1, "%d", count);
    return told();
}
