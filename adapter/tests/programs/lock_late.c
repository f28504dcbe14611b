// Locks that are destroyed by a function which exit() calls.
// steps: lock_init, set 0, lock_destroy 0, lock_destroy 1
#include "../check.h"

static omp_lock_t lock;
static omp_nest_lock_t nest;

static void end(void) {
    omp_destroy_lock(&lock);
    omp_destroy_nest_lock(&nest);
}

int main(void) {
    omp_init_lock(&lock);
    omp_init_nest_lock(&nest);
#pragma omp parallel
    {
        omp_set_lock(&lock);
        omp_unset_lock(&lock);
    }
    atexit(end);
    return told();
}
