// Parallel regions inside of tasks, with tasks of their own; a task has its creator's control variables, and keeps its own.
// threads: 1 2 4 8
// steps: task, task_end
#include "../check.h"

static int members, tasks, sizes[20];

static void body(int k) {
    CHECK(omp_get_max_threads() == 3, "%d", omp_get_max_threads());
    omp_set_num_threads(1 + k % 2);
#pragma omp parallel
    {
        CHECK(omp_get_level() == 2 && omp_get_num_threads() == 1 + k % 2, "%d members", omp_get_num_threads());
        COUNT(members);
#pragma omp task
        COUNT(tasks);
#pragma omp taskwait
#pragma omp task
        COUNT(tasks);
    }
    CHECK(omp_get_level() == 1, "level %d", omp_get_level());
    sizes[k] = omp_get_max_threads();
}

int main(void) {
    omp_set_max_active_levels(2);
#pragma omp parallel
    {
        int before = omp_get_max_threads(), creates = 0;
#pragma omp single nowait
        {
            creates = 1;
            omp_set_num_threads(3);
            for (int k = 0; k < 20; k++)
#pragma omp task
                body(k);
            omp_set_num_threads(5);
        }
#pragma omp barrier
        CHECK(omp_get_max_threads() == (creates ? 5 : before), "%d", omp_get_max_threads());
    }
    for (int k = 0; k < 20; k++)
        CHECK(sizes[k] == 1 + k % 2, "%d", sizes[k]);
    CHECK(members == 30 && tasks == 2 * members, "%d members, %d tasks", members, tasks);
    return told();
}
