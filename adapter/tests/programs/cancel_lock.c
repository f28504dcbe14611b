// Locks that are set when a region, or a taskgroup, is cancelled, and that the way out unsets: those who wait for them get them.
// Critical regions in a cancelled region exclude one another.
// environment: OMP_CANCELLATION=true
// steps: cancel parallel 1, set 0, unset 0, unset_nest 1, critical
#include "../check.h"

static omp_lock_t lock;
static omp_nest_lock_t nest;
static int held, passed, owners, unsets;

static void unset(int *count) {
    if (*count == 0)
        return;
    __atomic_sub_fetch(&held, 1, __ATOMIC_SEQ_CST);
    COUNT(unsets);
    omp_unset_nest_lock(&nest);
    omp_unset_nest_lock(&nest);
    omp_unset_lock(&lock);
}

int main(void) {
    omp_init_lock(&lock);
    omp_init_nest_lock(&nest);
    for (int round = 0; round < 10; round++) {
        passed = owners = unsets = 0;
        long in_critical = 0;
#pragma omp parallel
        {
            int count __attribute__((cleanup(unset))) = 0;
            omp_set_lock(&lock);
            omp_set_nest_lock(&nest);
            omp_set_nest_lock(&nest);
            count = 1;
            CHECK(__atomic_add_fetch(&held, 1, __ATOMIC_SEQ_CST) == 1, "two hold the lock");
            COUNT(owners);
#pragma omp critical
            in_critical++;
#pragma omp cancel parallel if (omp_get_thread_num() == round % omp_get_num_threads())
            COUNT(passed);
        }
        CHECK(owners == asked() && owners == unsets && in_critical == asked(), "%d, %d, %ld", owners, unsets, in_critical);
        CHECK(passed < asked() && held == 0, "%d", passed);
        owners = unsets = 0;
#pragma omp parallel
#pragma omp single
        {
#pragma omp taskgroup
            for (int k = 0; k < 20; k++) {
#pragma omp task
                {
                    int count __attribute__((cleanup(unset))) = 0;
                    omp_set_lock(&lock);
                    omp_set_nest_lock(&nest);
                    omp_set_nest_lock(&nest);
                    count = 1;
                    CHECK(__atomic_add_fetch(&held, 1, __ATOMIC_SEQ_CST) == 1, "two hold the lock");
                    COUNT(owners);
#pragma omp cancel taskgroup if (k == round)
                }
            }
        }
        CHECK(owners == unsets && owners <= 20 && owners > 0 && held == 0, "%d, %d", owners, unsets);
        CHECK(omp_test_lock(&lock), "it is set");
        omp_unset_lock(&lock);
    }
    omp_destroy_lock(&lock);
    omp_destroy_nest_lock(&nest);
    return told();
}
