// E33 CountTooLarge: a nestable lock is set 65,536 times.
// threads: 1
// words: omp_set_nest_lock of lock 0, holding lock 0
// limit: yes
#include "../check.h"

int main(void) {
    omp_nest_lock_t lock;
    omp_init_nest_lock(&lock);
#pragma omp parallel
    {
        for (int k = 0; k < 65536; k++)
            omp_set_nest_lock(&lock);
        for (int k = 0; k < 65536; k++)
            omp_unset_nest_lock(&lock);
    }
    omp_destroy_nest_lock(&lock);
    return told();
}
