// Trees of tasks by chance: with children that are waited for by taskwait or taskgroup, or not at all, critical regions, locks,
// and barriers between.
// steps: task, taskwait, group, group_end, critical, set 0, barrier
#include "../check.h"

static omp_lock_t lock;
static int created, done, locked, inside;

static unsigned next(unsigned *seed) {
    *seed = *seed * 1103515245u + 12345u;
    return *seed >> 16 & 0x7fff;
}

static void tree(unsigned seed, int depth);

static void create(unsigned *seed, int depth, int count) {
    for (int k = 0; k < count; k++) {
        unsigned own = next(seed);
        COUNT(created);
#pragma omp task firstprivate(own)
        tree(own, depth - 1);
    }
}

static void hold(unsigned kind) {
    if (kind == 0) {
#pragma omp critical
        CHECK(++inside == 1 && --inside == 0, "not alone");
    } else if (kind == 1) {
        omp_set_lock(&lock);
        locked++;
        omp_unset_lock(&lock);
    } else if (kind == 2) {
        usleep(10);
    }
}

static void tree(unsigned seed, int depth) {
    int before = 0;
    hold(next(&seed) % 6);
    if (depth > 0) {
        switch (next(&seed) % 4) {
        case 0:
            create(&seed, depth, (int)(next(&seed) % 4));
            break;
        case 1:
            create(&seed, depth, (int)(next(&seed) % 3));
#pragma omp taskwait
            hold(next(&seed) % 6);
            create(&seed, depth, 1);
            break;
        case 2:
#pragma omp taskgroup
            create(&seed, depth, (int)(next(&seed) % 3));
            break;
        default:
#pragma omp taskgroup
        {
#pragma omp task shared(before)
            before = 1;
#pragma omp taskwait
            CHECK(before == 1, "a task was not waited for");
            create(&seed, depth, 2);
        }
        }
    }
    COUNT(done);
}

int main(void) {
    omp_init_lock(&lock);
#pragma omp parallel
    for (unsigned round = 0; round < 4; round++) {
        unsigned seed = 77 * round + 13 * (unsigned)omp_get_thread_num();
        if (next(&seed) % 3 > 0)
            create(&seed, 5, 3);
        if (round % 2 == 0) {
#pragma omp taskwait
        }
#pragma omp barrier
        CHECK(created == done, "round %u: %d are created, %d are done", round, created, done);
#pragma omp barrier
    }
    CHECK(created > 0 && created == done, "%d are created, %d are done", created, done);
    omp_destroy_lock(&lock);
    return told();
}
