// 75: a member comes to a barrier with a lock that the others wait for.
// words: deadlock, #pragma omp barrier, omp_set_nest_lock of lock 0, holding lock 0
#include "../check.h"

int main(void) {
    int count = 0;
    omp_nest_lock_t lock;
    omp_init_nest_lock(&lock);
#pragma omp parallel
    {
        omp_set_nest_lock(&lock);
        count++;
#pragma omp barrier
        omp_unset_nest_lock(&lock);
    }
    CHECK(count == asked(), "%d", count);
    return told();
}
