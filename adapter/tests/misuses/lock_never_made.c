// E32 NoLock: a lock that was never initialized, beside one that was.
// words: omp_set_lock of a lock that was never initialized
#include "../check.h"

static omp_lock_t lock, other;

int main(void) {
    int count = 0;
    omp_init_lock(&other);
#pragma omp parallel
    {
        omp_set_lock(&lock);
        count++;
        omp_unset_lock(&lock);
    }
    CHECK(count == asked(), "%d", count);
    return told();
}
