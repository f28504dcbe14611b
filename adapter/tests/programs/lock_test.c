// omp_test_lock: it never waits; who gets the lock is alone, and all get it at last.
// steps: test 0
#include "../check.h"

int main(void) {
    int count = 0, inside = 0;
    omp_lock_t lock;
    omp_init_lock(&lock);
#pragma omp parallel
    for (int k = 0; k < 3; k++) {
        while (!omp_test_lock(&lock))
            usleep(500);
        CHECK(__atomic_add_fetch(&inside, 1, __ATOMIC_SEQ_CST) == 1, "not alone");
        CHECK(!omp_test_lock(&lock), "a lock is got that is set");
        count++;
        __atomic_sub_fetch(&inside, 1, __ATOMIC_SEQ_CST);
        omp_unset_lock(&lock);
    }
    CHECK(count == 3 * asked(), "%d", count);
    CHECK(omp_test_lock(&lock), "a lock is not got that is free");
    omp_unset_lock(&lock);
    omp_destroy_lock(&lock);
    return told();
}
