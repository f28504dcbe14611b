// A taskgroup waits for the tasks that are created in it and for all that descend from them; a taskwait for children alone.
// steps: group, task, group_end, task_end
#include "../check.h"

static int leaves;

static void grow(int depth) {
    if (depth == 0) {
        usleep(100);
        COUNT(leaves);
        return;
    }
    for (int k = 0; k < 2; k++)
#pragma omp task
        grow(depth - 1);
}

// A group in each task.
static int gather(int depth) {
    int parts[2] = {0};
    if (depth == 0)
        return 1;
#pragma omp taskgroup
    for (int k = 0; k < 2; k++)
#pragma omp task shared(parts)
        parts[k] = gather(depth - 1);
    return parts[0] + parts[1];
}

int main(void) {
    int wanted = 0, inner = 0;
#pragma omp parallel
    {
#pragma omp taskgroup
        CHECK(omp_get_level() == 1, "an empty group");
#pragma omp single
        {
#pragma omp taskgroup
            grow(4);
            CHECK(leaves == 16, "%d leaves", leaves);
#pragma omp taskgroup
            {
#pragma omp task
                {
#pragma omp taskgroup
                    {
#pragma omp task
                        grow(2);
#pragma omp taskwait
                    }
                    CHECK(leaves >= 20, "%d leaves", leaves);
                    __atomic_store_n(&inner, 1, __ATOMIC_SEQ_CST);
                }
                grow(1);
            }
            CHECK(leaves == 22 && inner, "%d leaves, %d", leaves, inner);
        }
#pragma omp single
        wanted = gather(5);
        CHECK(wanted == 32, "%d", wanted);
    }
    leaves = 0;
#pragma omp parallel
    {
#pragma omp taskgroup
        grow(2);
        CHECK(__atomic_load_n(&leaves, __ATOMIC_SEQ_CST) >= 4, "some are not done");
    }
    CHECK(leaves == 4 * asked(), "%d leaves", leaves);
    return told();
}
