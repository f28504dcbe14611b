// omp_set_lock: in a region inside of a task that is outside of every region; its team has no book with the lock.
#include "../check.h"

int main(void) {
    int count = 0;
    omp_lock_t lock;
    omp_init_lock(&lock);
#pragma omp task
    {
#pragma omp parallel
        {
            omp_set_lock(&lock);
            count++;
            omp_unset_lock(&lock);
        }
    }
    CHECK(count == asked(), "%d", count);
    return told();
}
