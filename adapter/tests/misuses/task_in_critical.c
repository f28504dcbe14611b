// E30 AlreadyHeld: a member waits for a task in a critical region, and the task enters a region of the same name on it.
// threads: 1
// words: #pragma omp critical (ledger), executes this task while it waits there, executing #pragma omp task
#include "../check.h"

static int count;

__attribute__((noinline)) static void add(void) {
#pragma omp critical(ledger)
    count++;
}

int main(void) {
#pragma omp parallel
    {
#pragma omp critical(ledger)
        {
#pragma omp task
            add();
#pragma omp taskwait
            count++;
        }
    }
    CHECK(count == 2, "%d", count);
    return told();
}
