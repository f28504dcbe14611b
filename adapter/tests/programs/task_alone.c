// Outside of every region a task is executed at once; regions in a task and in a taskgroup there have a team of their own.
// steps: task, taskwait, group, group_end, task_end
#include "../check.h"

static int order[8], done, members, iterations;

static void note(int k) {
    order[done++] = k;
}

static int sum_of(int n) {
    int left = 0, right = 0;
    if (n < 2)
        return 1;
#pragma omp task shared(left)
    left = sum_of(n / 2);
#pragma omp task shared(right)
    right = sum_of(n - n / 2);
#pragma omp taskwait
    return left + right;
}

int main(void) {
    note(0);
#pragma omp task
    {
        note(1);
#pragma omp task
        note(2);
        note(3);
    }
    note(4);
#pragma omp taskwait
    for (int k = 0; k < 5; k++)
        CHECK(order[k] == k, "%d is at %d", order[k], k);
    CHECK(sum_of(50) == 50, "%d", sum_of(50));
#pragma omp task
    {
#pragma omp parallel
        {
            COUNT(members);
#pragma omp for schedule(dynamic)
            for (int i = 0; i < 20; i++)
                COUNT(iterations);
        }
        CHECK(omp_get_level() == 0 && omp_get_num_threads() == 1, "level %d", omp_get_level());
    }
    CHECK(members == asked() && iterations == 20, "%d members, %d iterations", members, iterations);
#pragma omp taskgroup
    {
#pragma omp task
        COUNT(iterations);
#pragma omp parallel
        COUNT(members);
    }
#pragma omp parallel
    COUNT(members);
    CHECK(members == 3 * asked() && iterations == 21, "%d members, %d iterations", members, iterations);
    return told();
}
