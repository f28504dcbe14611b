// Locks that the members make themselves: one for all, and one for each member, which its neighbours set.
// steps: lock_init, set, unset, lock_destroy
#include "../check.h"

static omp_lock_t common, own[64];

int main(void) {
    int counts[64] = {0}, sum = 0;
#pragma omp parallel
    {
        int me = omp_get_thread_num(), n = omp_get_num_threads();
        omp_init_lock(&own[me]);
#pragma omp single
        omp_init_lock(&common);
        for (int k = 0; k < 4; k++) {
            int other = (me + k) % n;
            omp_set_lock(&own[other]);
            counts[other]++;
            omp_set_lock(&common);
            sum++;
            omp_unset_lock(&common);
            omp_unset_lock(&own[other]);
        }
#pragma omp barrier
        omp_destroy_lock(&own[me]);
#pragma omp single
        omp_destroy_lock(&common);
    }
    CHECK(sum == 4 * asked(), "%d", sum);
    check_each(counts, asked(), 4, "lock of a member");
    return told();
}
