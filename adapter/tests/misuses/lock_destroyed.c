// E32 NoLock: a lock is set after its end.
// words: omp_set_lock of lock 0
#include "../check.h"

int main(void) {
    int count = 0;
    omp_lock_t lock;
    omp_init_lock(&lock);
    omp_destroy_lock(&lock);
#pragma omp parallel
    {
        omp_set_lock(&lock);
        count++;
        omp_unset_lock(&lock);
    }
    CHECK(count == asked(), "%d", count);
    return told();
}
