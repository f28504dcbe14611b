// E31 NotHolder: a nestable lock is unset once more than it was set.
// words: omp_unset_nest_lock of lock 0
#include "../check.h"

int main(void) {
    omp_nest_lock_t lock;
    omp_init_nest_lock(&lock);
#pragma omp parallel
    {
        omp_set_nest_lock(&lock);
        omp_set_nest_lock(&lock);
        for (int k = 0; k < 3; k++)
            omp_unset_nest_lock(&lock);
    }
    return told();
}
