// A taskyield, in tasks and outside of them, of every kind that changes nothing: untied, mergeable, if and final by clause.
// steps: task, task_end
#include "../check.h"

int main(int count, char **words) {
    int done = 0, truth = count > 0 && words != NULL, wrong = !truth;
#pragma omp taskyield
#pragma omp taskwait
#pragma omp parallel
    {
#pragma omp taskyield
#pragma omp single
        {
#pragma omp task untied
            {
#pragma omp taskyield
                COUNT(done);
            }
#pragma omp task mergeable
            COUNT(done);
#pragma omp task if (truth)
            COUNT(done);
#pragma omp task final(wrong)
            COUNT(done);
#pragma omp task priority(0)
            COUNT(done);
#pragma omp task if (task : truth) untied mergeable priority(wrong)
            {
                CHECK(!omp_in_final(), "%d", omp_in_final());
                COUNT(done);
            }
#pragma omp taskyield
        }
        CHECK(done == 6, "%d", done);
    }
    return told();
}
