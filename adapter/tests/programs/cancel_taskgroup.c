// A taskgroup is cancelled by a task in it: its tasks that have not begun may be left out, those of taskgroups in it too, and
// those outside of it are executed, also one that depends on a task of it. The taskgroup's end waits for those that have begun.
// environment: OMP_CANCELLATION=true
// steps: cancel taskgroup 1, point taskgroup, group_end, task inout
#include "../check.h"

#define TASKS 30

static int begun, ended, behind, outside, later, chain, seen;

static void nested(void) {
#pragma omp taskgroup
    {
        for (int k = 0; k < 3; k++)
#pragma omp task
        {
            COUNT(begun);
            usleep(20);
            COUNT(ended);
        }
    }
}

static void group(int round) {
    int begun_before, item = 0, after = 0;
#pragma omp taskgroup
    {
        for (int k = 0; k < TASKS; k++) {
#pragma omp task depend(inout : item) shared(item)
            {
                COUNT(begun);
                item++;
                COUNT(ended);
            }
#pragma omp task firstprivate(k)
            {
                COUNT(begun);
                nested();
                COUNT(ended);
                if (k == round) {
#pragma omp cancel taskgroup
                    COUNT(behind);
                }
#pragma omp cancellation point taskgroup
                COUNT(seen);
            }
        }
    }
    begun_before = __atomic_load_n(&begun, __ATOMIC_SEQ_CST);
    CHECK(begun_before == __atomic_load_n(&ended, __ATOMIC_SEQ_CST), "%d begun, %d ended", begun, ended);
#pragma omp task depend(inout : item) shared(item, after)
    after = item + 1;
#pragma omp taskwait
    CHECK(after == item + 1, "the task behind was not executed: %d, %d", after, item);
    CHECK(item <= TASKS, "%d", item);
}

int main(void) {
    for (int round = 0; round < 10; round++) {
        begun = ended = behind = outside = later = chain = seen = 0;
#pragma omp parallel
        {
#pragma omp single
            {
#pragma omp task
                COUNT(outside);
                group(round);
#pragma omp task
                COUNT(later);
            }
        }
        CHECK(behind == 0, "the task went on");
        CHECK(outside == 1 && later == 1, "tasks outside: %d, %d", outside, later);
        CHECK(begun <= TASKS * 5 && begun == ended && seen < TASKS, "%d begun, %d ended, %d", begun, ended, seen);
    }
    begun = ended = 0;
    group(2); // outside of every region
    CHECK(begun == ended && begun <= TASKS * 5, "outside of a region: %d, %d", begun, ended);
    return told();
}
