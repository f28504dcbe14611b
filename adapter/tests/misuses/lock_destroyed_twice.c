// E32 NoLock: a nestable lock is destroyed a second time.
// words: omp_destroy_nest_lock of lock 0
#include "../check.h"

int main(void) {
    omp_nest_lock_t lock;
    omp_init_nest_lock(&lock);
    omp_destroy_nest_lock(&lock);
    omp_destroy_nest_lock(&lock);
    return told();
}
