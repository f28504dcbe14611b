// Nestable locks: the thread that holds one sets it again, and omp_test_nest_lock tells how often it is set.
// steps: set_nest 0, test_nest 0, unset_nest 0
#include "../check.h"

static omp_nest_lock_t lock;
static int count;

static void add(int depth) {
    omp_set_nest_lock(&lock);
    count++;
    if (depth > 1)
        add(depth - 1);
    omp_unset_nest_lock(&lock);
}

int main(void) {
    omp_init_nest_lock(&lock);
#pragma omp parallel
    {
        add(4);
        omp_set_nest_lock(&lock);
        int before = count;
        CHECK(omp_test_nest_lock(&lock) == 2, "the second time");
        CHECK(omp_test_nest_lock(&lock) == 3, "the third time");
        sched_yield();
        omp_unset_nest_lock(&lock);
        omp_unset_nest_lock(&lock);
        count = before + 1;
        omp_unset_nest_lock(&lock);
        int times;
        while ((times = omp_test_nest_lock(&lock)) == 0)
            usleep(500);
        CHECK(times == 1, "%d", times);
        count++;
        omp_unset_nest_lock(&lock);
    }
    CHECK(count == 6 * asked(), "%d", count);
    add(2);
    CHECK(omp_test_nest_lock(&lock) == 1, "outside of the region");
    omp_unset_nest_lock(&lock);
    omp_destroy_nest_lock(&lock);
    return told();
}
