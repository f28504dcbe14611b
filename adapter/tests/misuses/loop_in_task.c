// E6 InsideTask: a loop in a task, reached through a function.
// words: #pragma omp for schedule(dynamic, 2), executing #pragma omp task
#include "../check.h"

static int done[20];

__attribute__((noinline)) static void loop(void) {
#pragma omp for schedule(dynamic, 2) nowait
    for (int i = 0; i < 20; i++)
        COUNT(done[i]);
}

int main(void) {
#pragma omp parallel
    {
#pragma omp single
        {
#pragma omp task
            loop();
#pragma omp task
            loop();
        }
    }
    check_each(done, 20, 2, "iteration");
    return told();
}
