// A region is cancelled while others are in an ordered loop: the parts that are executed come in the order of the iterations, one
// at a time, and without one that was left out; a critical region may stand in them.
// environment: OMP_CANCELLATION=true
// steps: cancel parallel 1, loop dynamic ordered, loop guided ordered, ordered, critical
#include "../check.h"

#define SIZE 50

static int last, inside, passed, criticals;

static void part(int i) {
    CHECK(__atomic_add_fetch(&inside, 1, __ATOMIC_SEQ_CST) == 1, "two parts at once, at %d", i);
    CHECK(i == last + 1, "iteration %d after %d", i, last);
    last = i;
    if (i % 8 == 0)
        usleep(100);
#pragma omp critical(part)
    criticals++;
    __atomic_sub_fetch(&inside, 1, __ATOMIC_SEQ_CST);
}

int main(void) {
    for (int round = 0; round < 12; round++) {
        last = -1;
        passed = 0;
#pragma omp parallel
        {
            if (omp_get_thread_num() == round % omp_get_num_threads()) {
                usleep(100 * (round % 4));
#pragma omp cancel parallel
                COUNT(passed);
            }
#pragma omp for schedule(dynamic, 2) ordered
            for (int i = 0; i < SIZE; i++) {
#pragma omp ordered
                part(i);
#pragma omp critical(part)
                criticals++;
            }
            COUNT(passed);
        }
        CHECK(passed == 0 && inside == 0, "%d passed", passed);
        CHECK(last == (asked() == 1 ? -1 : last), "the last is %d", last);
        last = -1;
#pragma omp parallel
        {
            if (omp_get_thread_num() == round % omp_get_num_threads()) {
                usleep(100 * (round % 4));
#pragma omp cancel parallel
                COUNT(passed);
            }
#pragma omp for schedule(guided) ordered nowait
            for (int i = 0; i < SIZE; i++) {
#pragma omp ordered
                part(i);
            }
#pragma omp for schedule(dynamic)
            for (int i = 0; i < SIZE; i++)
                (void)i;
            COUNT(passed);
        }
        CHECK(passed == 0 && inside == 0, "%d passed", passed);
    }
    return told();
}
