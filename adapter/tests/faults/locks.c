// A lock and a critical region: for engines that answer nonsense to their calls.
#include "../check.h"

int main(void) {
    int count = 0;
    omp_lock_t lock;
    omp_nest_lock_t nest;
    omp_init_lock(&lock);
    omp_init_nest_lock(&nest);
#pragma omp parallel
    {
        omp_set_lock(&lock);
        omp_unset_lock(&lock);
        omp_set_nest_lock(&nest);
        omp_unset_nest_lock(&nest);
#pragma omp critical(ledger)
        count++;
    }
    return count != asked();
}
