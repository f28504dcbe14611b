// A region is cancelled, and the iterations of the member that left stand before others' in an ordered loop: no member waits for
// these for ever, and the parts that are executed come in the order of the iterations, one at a time. libgomp 12 hangs.
// environment: OMP_CANCELLATION=true
// steps: cancel parallel 1, loop static ordered
#include "../check.h"

#define SIZE 40

static int last, inside, passed, done, others, tasks;

static void part(int i) {
    CHECK(__atomic_add_fetch(&inside, 1, __ATOMIC_SEQ_CST) == 1, "two parts at once, at %d", i);
    CHECK(i > last, "iteration %d after %d", i, last);
    last = i;
#pragma omp critical
    done++;
    if (i % 8 == 0)
        usleep(100);
    __atomic_sub_fetch(&inside, 1, __ATOMIC_SEQ_CST);
}

int main(void) {
    for (int round = 0; round < 8; round++) {
        last = -1;
        passed = done = 0;
#pragma omp parallel
        {
            if (omp_get_thread_num() == round % omp_get_num_threads()) {
                usleep(100 * (round % 4));
#pragma omp cancel parallel
                COUNT(passed);
            }
            if (round % 2) {
#pragma omp for schedule(static) ordered
                for (int i = 0; i < SIZE; i++) {
#pragma omp ordered
                    part(i);
#pragma omp critical
                    others++;
                }
            } else if (round % 4) {
#pragma omp for schedule(static, 2) ordered nowait
                for (int i = 0; i < SIZE; i++) {
#pragma omp ordered
                    part(i);
                }
#pragma omp critical
                others++;
#pragma omp for schedule(dynamic) nowait
                for (int i = 0; i < SIZE; i++)
                    (void)i;
#pragma omp task
                COUNT(tasks);
#pragma omp taskwait
#pragma omp barrier
            } else {
#pragma omp for schedule(static, 3) ordered
                for (int i = 0; i < SIZE; i++) {
#pragma omp ordered
                    part(i);
                }
            }
            COUNT(passed);
        }
        CHECK(passed == 0 && inside == 0, "%d passed", passed);
        CHECK(tasks <= asked(), "%d tasks", tasks);
        tasks = 0;
        CHECK(done < SIZE, "all iterations were done, though a member left");
    }
    return told();
}
