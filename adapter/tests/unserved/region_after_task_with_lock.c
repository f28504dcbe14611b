// after a task of its thread has ended with a lock set, by omp_set_lock of lock 0: a region that main begins then.
#include "../check.h"

int main(void) {
    int count = 0;
    omp_lock_t lock;
    omp_init_lock(&lock);
#pragma omp task
    omp_set_lock(&lock);
#pragma omp parallel
    COUNT(count);
    CHECK(count == asked(), "%d", count);
    return told();
}
