// A region is cancelled with tasks in it: one that has begun comes to its end before the region does, one that has not may be left
// out, and none is executed twice; so with depend, with a false if clause and in a task. Their data are copied, and some are large.
// environment: OMP_CANCELLATION=true
// steps: cancel parallel 1, task, task inout, task if0, task if0 inout, task_end
#include "../check.h"

#define TASKS 40

static int begun[TASKS], ended[TASKS], children_begun, children_ended, undeferred, passed, chain;

static void child(void) {
#pragma omp task
    {
        COUNT(children_begun);
        usleep(20);
        COUNT(children_ended);
    }
}

static void create(int k) {
    int data[100 + k];
    data[99 + k] = k;
#pragma omp task firstprivate(data)
    {
        COUNT(begun[k]);
        CHECK(data[99 + k] == k, "task %d has %d", k, data[99 + k]);
        child();
        usleep(50);
        child();
#pragma omp task if (0)
        COUNT(undeferred);
#pragma omp taskwait
        COUNT(ended[k]);
    }
#pragma omp task depend(inout : chain)
    {
        usleep(20);
        chain++;
    }
    if (k % 10 == 9) {
#pragma omp task if (0) depend(inout : chain)
        chain++;
    }
}

int main(void) {
    for (int round = 0; round < 8; round++) {
        int kept = round * 3;
        passed = chain = undeferred = children_begun = children_ended = 0;
#pragma omp parallel
        {
#pragma omp single nowait
            for (int k = 0; k < TASKS; k++)
                create(k);
            if (omp_get_thread_num() == (round + 1) % omp_get_num_threads()) {
                usleep(100 * round);
#pragma omp cancel parallel
                COUNT(passed);
            }
#pragma omp barrier
            COUNT(passed);
        }
        CHECK(passed == 0 && kept == round * 3, "%d passed", passed);
        CHECK(children_begun == children_ended, "%d children begun, %d ended", children_begun, children_ended);
        CHECK(undeferred <= TASKS && chain <= TASKS + TASKS / 10, "%d, %d", undeferred, chain);
        for (int k = 0; k < TASKS; k++) {
            CHECK(begun[k] <= 1 && begun[k] == ended[k], "task %d: begun %d, ended %d times", k, begun[k], ended[k]);
            begun[k] = ended[k] = 0;
        }
    }
    return told();
}
