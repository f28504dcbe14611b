// A tree of tasks: each waits for its children by taskwait. Tasks are executed on any member, and twice on none.
// steps: task, taskwait, task_end, resume, region_end
#include "../check.h"

static int tasks;

static long serial(int n) {
    return n < 2 ? n : serial(n - 1) + serial(n - 2);
}

static long fibonacci(int n) {
    long left = 0, right = 0;
    COUNT(tasks);
    if (n < 2)
        return n;
#pragma omp task shared(left)
    left = fibonacci(n - 1);
#pragma omp task shared(right)
    right = fibonacci(n - 2);
#pragma omp taskwait
    return left + right;
}

// Without a taskwait: the barrier waits for all of it.
static void mark(int *marks, int at, int size) {
    if (at >= size)
        return;
    COUNT(marks[at]);
    for (int child = 2 * at + 1; child <= 2 * at + 2; child++)
#pragma omp task
        mark(marks, child, size);
}

int main(void) {
    int marks[100] = {0};
    long sum = 0;
#pragma omp parallel
    {
#pragma omp single
        sum = fibonacci(11);
        CHECK(sum == serial(11), "%ld", sum);
        CHECK(tasks == 287, "%d calls", tasks);
#pragma omp single
        mark(marks, 0, 100);
        for (int k = 0; k < 100; k++)
            CHECK(marks[k] == 1, "%d was marked %d times", k, marks[k]);
    }
    return told();
}
