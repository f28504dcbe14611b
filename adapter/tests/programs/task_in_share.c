// Tasks that are created in loops, sections and ordered parts: the barrier at the end waits for them, or a taskwait there.
// steps: loop dynamic 3, sections 2, single_copy, ordered, task, taskwait
#include "../check.h"

int main(void) {
    int done[40] = {0}, halves[2] = {0}, parts = 0, word = 0;
#pragma omp parallel
    {
#pragma omp for schedule(dynamic, 3)
        for (int i = 0; i < 40; i++)
#pragma omp task
            COUNT(done[i]);
        for (int i = 0; i < 40; i++)
            CHECK(done[i] == 1, "task %d was done %d times", i, done[i]);
#pragma omp barrier
#pragma omp for schedule(guided) nowait
        for (int i = 0; i < 40; i++) {
            int before = 0;
#pragma omp task shared(before)
            {
                COUNT(done[i]);
                before = 1;
            }
#pragma omp taskwait
            CHECK(before == 1, "iteration %d went on before its task", i);
        }
#pragma omp sections
        {
#pragma omp section
#pragma omp task
            COUNT(halves[0]);
#pragma omp section
            {
#pragma omp taskgroup
                {
#pragma omp task
                    COUNT(halves[1]);
                }
            }
        }
        CHECK(halves[0] == 1 && halves[1] == 1, "%d and %d", halves[0], halves[1]);
#pragma omp for schedule(dynamic) ordered
        for (int i = 0; i < 20; i++) {
#pragma omp ordered
#pragma omp task
            COUNT(parts);
        }
        CHECK(parts == 20, "%d parts", parts);
        int own = 0;
#pragma omp single copyprivate(own)
        {
#pragma omp task shared(word)
            word = 7;
#pragma omp taskwait
            own = word;
        }
        CHECK(own == 7, "%d", own);
    }
    check_each(done, 40, 2, "task");
    return told();
}
