// Tasks inside of tasks, 64 deep: each waits for its child, or none does.
// steps: task, taskwait, task_end
#include "../check.h"

static int begun, ended;

static void go(int depth, bool waits) {
    if (depth == 0)
        return;
#pragma omp task
    {
        COUNT(begun);
        go(depth - 1, waits);
        COUNT(ended);
    }
    if (waits) {
#pragma omp taskwait
        CHECK(__atomic_load_n(&ended, __ATOMIC_SEQ_CST) >= depth, "depth %d: %d have ended", depth, ended);
    }
}

int main(void) {
    for (int waits = 0; waits < 2; waits++) {
        begun = ended = 0;
#pragma omp parallel
        {
#pragma omp single
            go(64, waits);
        }
        CHECK(begun == 64 && ended == 64, "%d begun, %d ended", begun, ended);
    }
#pragma omp parallel
    go(10, true);
    CHECK(ended == 64 + 10 * asked(), "%d", ended);
    return told();
}
