// 75: a member waits for a task in a critical region, and another member executes it: the task waits for a region of the same name.
// threads: 2
// words: deadlock, member 0 is in #pragma omp critical (ledger), waits there for this task, executing #pragma omp task
#include "../check.h"

static int count, is_begun;

__attribute__((noinline)) static void add(void) {
    __atomic_store_n(&is_begun, 1, __ATOMIC_SEQ_CST);
#pragma omp critical(ledger)
    count++;
}

int main(void) {
#pragma omp parallel
    {
        if (omp_get_thread_num() == 0) {
#pragma omp critical(ledger)
            {
#pragma omp task
                add();
                while (!__atomic_load_n(&is_begun, __ATOMIC_SEQ_CST))
                    sched_yield();
#pragma omp taskwait
                count++;
            }
        }
    }
    CHECK(count == 2, "%d", count);
    return told();
}
