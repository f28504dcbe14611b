// A region is cancelled while others are in a taskgroup in it, or in two, at the barrier of a loop, of sections or of a single, or
// on their way there: they go out of the taskgroups, to the region's end. A later region is whole.
// environment: OMP_CANCELLATION=true
// steps: cancel parallel 1, group, barrier, group_end, loop dynamic, sections, single, region_end
#include "../check.h"

#define ROUNDS 12
#define ITERATIONS 64

static int done[ITERATIONS], behind;

// Whether the caller is the member that cancels in this round; in some it waits until others are at their barrier.
static bool cancels(int round) {
    if (omp_get_thread_num() != round % omp_get_num_threads()) {
        if (round % 3 == 1)
            usleep(200);
        return false;
    }
    if (round % 3 == 0)
        usleep(300);
    return true;
}

// What the members share in their taskgroup: it stands in the region itself, for a barrier outside of it isn't cancellable.
enum share { STATIC_LOOP, DYNAMIC_LOOP, SECTIONS, SINGLE, SHARES };

static void in_one_group(int round, enum share share) {
#pragma omp parallel
    {
        if (cancels(round)) {
#pragma omp cancel parallel
            COUNT(behind);
        }
#pragma omp taskgroup
        {
            if (share == STATIC_LOOP) {
#pragma omp for
                for (int i = 0; i < ITERATIONS; i++)
                    COUNT(done[i]);
            } else if (share == DYNAMIC_LOOP) {
#pragma omp for schedule(dynamic)
                for (int i = 0; i < ITERATIONS; i++)
                    COUNT(done[i]);
            } else if (share == SECTIONS) {
#pragma omp sections
                {
#pragma omp section
                    COUNT(done[0]);
#pragma omp section
                    COUNT(done[1]);
                }
            } else {
#pragma omp single
                COUNT(done[0]);
            }
            COUNT(behind);
        }
        COUNT(behind);
    }
}

static void in_two_groups(int round) {
#pragma omp parallel
    {
        if (cancels(round)) {
#pragma omp cancel parallel
            COUNT(behind);
        }
#pragma omp taskgroup
#pragma omp taskgroup
        {
#pragma omp for schedule(dynamic)
            for (int i = 0; i < ITERATIONS; i++)
                COUNT(done[i]);
            COUNT(behind);
        }
        COUNT(behind);
    }
}

static void whole(void) {
#pragma omp parallel
    {
#pragma omp taskgroup
        {
#pragma omp for
            for (int i = 0; i < ITERATIONS; i++)
                COUNT(done[i]);
            COUNT(behind);
        }
    }
    check_each(done, ITERATIONS, 1, "iteration");
    CHECK(behind == asked(), "%d of %d were behind the loop", behind, asked());
    behind = 0;
}

int main(void) {
    for (int round = 0; round < ROUNDS; round++)
        for (int k = 0; k <= SHARES; k++) {
            if (k == SHARES)
                in_two_groups(round);
            else
                in_one_group(round, k);
            CHECK(behind == 0, "round %d, region %d: %d went on", round, k, behind);
            for (int i = 0; i < ITERATIONS; i++) {
                CHECK(done[i] <= 1, "round %d, region %d: %d was done %d times", round, k, i, done[i]);
                done[i] = 0;
            }
            behind = 0;
            whole();
        }
    return told();
}
