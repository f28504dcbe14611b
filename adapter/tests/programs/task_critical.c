// Tasks that use critical regions and locks: one at a time, whichever member executes them. A task is suspended with a
// lock that its children do not need, and one ends after it has set a lock and unset it.
// steps: task, taskwait, critical sum, set 0, unset 0, set_nest 1, set 2
#include "../check.h"

#define MOST 60

int main(void) {
    int sum = 0, locked = 0, nested = 0, below = 0;
    omp_lock_t lock, held;
    omp_nest_lock_t nest;
    omp_init_lock(&lock);
    omp_init_nest_lock(&nest);
    omp_init_lock(&held);
#pragma omp parallel
    {
#pragma omp single
        for (int k = 0; k < MOST; k++)
#pragma omp task
        {
#pragma omp critical(sum)
            sum += k;
            omp_set_lock(&lock);
            int before = locked;
            sched_yield();
            locked = before + 1;
            omp_unset_lock(&lock);
            omp_set_nest_lock(&nest);
            omp_set_nest_lock(&nest);
            nested++;
            omp_unset_nest_lock(&nest);
            omp_unset_nest_lock(&nest);
        }
        CHECK(sum == MOST * (MOST - 1) / 2 && locked == MOST && nested == MOST, "%d %d %d", sum, locked, nested);
#pragma omp single
        {
#pragma omp task
            {
                omp_set_lock(&held);
                for (int k = 0; k < 5; k++)
#pragma omp task
                {
                    CHECK(!omp_test_lock(&held), "a child has set the lock");
#pragma omp critical(sum)
                    below++;
                }
#pragma omp taskwait
                CHECK(below == 5, "%d", below);
                omp_unset_lock(&held);
            }
        }
    }
    CHECK(omp_test_lock(&held), "the lock is set");
    omp_unset_lock(&held);
    omp_destroy_lock(&held);
    omp_destroy_nest_lock(&nest);
    omp_destroy_lock(&lock);
    return told();
}
