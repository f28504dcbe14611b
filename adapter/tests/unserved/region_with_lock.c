// a critical name or a lock, by omp_test_lock of lock 0: a region that main begins while it holds a lock.
#include "../check.h"

int main(void) {
    int count = 0;
    omp_lock_t lock;
    omp_init_lock(&lock);
    CHECK(omp_test_lock(&lock), "the lock is free");
#pragma omp parallel
    COUNT(count);
    omp_unset_lock(&lock);
    CHECK(count == asked(), "%d", count);
    return told();
}
