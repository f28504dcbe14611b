// A taskwait for a task that a cancellation discards is passed at once, and not when the next task ends: what is discarded waits
// for a task that waits for that. OpenMP does not promise it, and libgomp 12 hangs.
// threads: 4
// environment: OMP_CANCELLATION=true
// steps: cancel parallel 1, cancel taskgroup 1, taskwait in
#include "../check.h"

static int first, second, is_passed, is_begun, is_waiting, executed, ended;

static void wait_for(int *flag) {
    while (!__atomic_load_n(flag, __ATOMIC_SEQ_CST))
        sched_yield();
}

static void set(int *flag) {
    __atomic_store_n(flag, 1, __ATOMIC_SEQ_CST);
}

static void family(void) {
#pragma omp task depend(out : first)
    {
        set(&is_begun);
        wait_for(&is_passed);
        COUNT(ended);
    }
#pragma omp task depend(in : first) depend(out : second)
    COUNT(executed);
    wait_for(&is_begun);
    set(&is_waiting);
#pragma omp taskwait depend(in : second)
    set(&is_passed);
    COUNT(ended);
}

static void by_region(void) {
#pragma omp parallel num_threads(3)
    {
        if (omp_get_thread_num() == 1)
            family();
        if (omp_get_thread_num() == 2) {
            wait_for(&is_waiting);
            usleep(2000);
#pragma omp cancel parallel
        }
#pragma omp barrier
    }
}

static void by_group(void) {
#pragma omp parallel num_threads(4)
#pragma omp single
    {
#pragma omp taskgroup
        {
#pragma omp task
            family();
#pragma omp task
            {
                wait_for(&is_waiting);
                usleep(2000);
#pragma omp cancel taskgroup
            }
        }
    }
}

int main(void) {
    for (int round = 0; round < 10; round++) {
        is_passed = is_begun = is_waiting = executed = ended = 0;
        if (round % 2)
            by_group();
        else
            by_region();
        CHECK(ended == 2 && executed == 0, "%d ended, %d executed", ended, executed);
    }
    return told();
}
