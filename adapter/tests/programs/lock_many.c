// More locks than one part of the adapter's list has, each set once by each member.
// threads: 1 4
// steps: lock_init, set 4999
#include "../check.h"

static omp_lock_t locks[5000];
static int counts[5000];

int main(void) {
    for (int k = 0; k < 5000; k++)
        omp_init_lock(&locks[k]);
#pragma omp parallel
    for (int k = 0; k < 5000; k++) {
        omp_set_lock(&locks[k]);
        counts[k]++;
        omp_unset_lock(&locks[k]);
    }
    check_each(counts, 5000, asked(), "lock");
    for (int k = 0; k < 5000; k++)
        omp_destroy_lock(&locks[k]);
    return told();
}
