// A member that holds a lock and a name never goes on; the others wait for one of them.
#include "../check.h"

int main(void) {
    omp_lock_t lock;
    omp_init_lock(&lock);
#pragma omp parallel
    {
        if (omp_get_thread_num() % 2 == 0) {
            omp_set_lock(&lock);
            usleep(200000);
        }
#pragma omp critical(ledger)
        pause();
    }
    return 1;
}
