// E32 NoLock: a nestable lock that was never initialized, whose memory has had other bytes.
// words: omp_test_nest_lock of a lock that was never initialized
#include "../check.h"

int main(void) {
    omp_nest_lock_t lock;
    memset(&lock, 1, sizeof lock);
#pragma omp parallel
    {
        if (omp_test_nest_lock(&lock) > 0)
            omp_unset_nest_lock(&lock);
    }
    return told();
}
