// A region is cancelled while others are in its loops: each iteration is done once at most, none passes the end of a loop with a
// barrier, and a loop with nowait has none. Of each schedule; more loops in a row than a team may have open.
// environment: OMP_CANCELLATION=true
// steps: cancel parallel 1, loop dynamic, loop guided, next, end_nowait
#include "../check.h"

#define SIZE 60
#define LOOPS 20

static int counts[LOOPS][SIZE], passed, criticals;

static void check_most(int round) {
    for (int loop = 0; loop < LOOPS; loop++)
        for (int i = 0; i < SIZE; i++) {
            CHECK(counts[loop][i] <= 1, "round %d: iteration %d of loop %d was done %d times", round, i, loop, counts[loop][i]);
            counts[loop][i] = 0;
        }
    CHECK(passed == 0, "round %d: %d passed", round, passed);
    passed = 0;
}

int main(void) {
    for (int round = 0; round < 12; round++) {
#pragma omp parallel
        {
            if (omp_get_thread_num() == round % omp_get_num_threads()) {
                if (round % 2)
                    usleep(500);
#pragma omp cancel parallel
                COUNT(passed);
            }
#pragma omp for schedule(dynamic, 2)
            for (int i = 0; i < SIZE; i++)
                COUNT(counts[0][i]);
            COUNT(passed);
        }
        check_most(round);
#pragma omp parallel
        {
            if (omp_get_thread_num() == round % omp_get_num_threads()) {
                if (round % 2)
                    usleep(500);
#pragma omp cancel parallel
                COUNT(passed);
            }
            for (int loop = 0; loop < LOOPS; loop++) {
#pragma omp for schedule(guided) nowait
                for (int i = 0; i < SIZE; i++)
                    COUNT(counts[loop][i]);
#pragma omp critical
                criticals++;
            }
#pragma omp for schedule(static)
            for (int i = 0; i < SIZE; i++)
                (void)i;
            COUNT(passed);
        }
        check_most(round);
#pragma omp parallel
        {
            if (omp_get_thread_num() == round % omp_get_num_threads()) {
#pragma omp cancel parallel
                COUNT(passed);
            }
#pragma omp for schedule(static, 3) nowait
            for (int i = 0; i < SIZE; i++)
                COUNT(counts[0][i]);
#pragma omp for schedule(runtime)
            for (int i = 0; i < SIZE; i++)
                COUNT(counts[1][i]);
            COUNT(passed);
        }
        check_most(round);
    }
    return told();
}
