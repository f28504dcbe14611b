// Nothing is cancelled without OMP_CANCELLATION=true, or if the clause is false: all results are whole, of regions, loops,
// sections and taskgroups.
// environment: OMP_CANCELLATION=false
// environment:
// environment: OMP_CANCELLATION=true CLAUSE=0
// environment: OMP_CANCELLATION=yes CLAUSE=1
// notes: may
// steps: cancel parallel, point parallel, cancel taskgroup, point taskgroup
#include "../check.h"

#define SIZE 100

static int counts[5][SIZE], passed, sections[2];

int main(void) {
    const char *word = getenv("CLAUSE");
    bool clause = word == NULL || atoi(word);
    CHECK(omp_get_cancellation() == !clause, "%d", omp_get_cancellation());
#pragma omp parallel
    {
#pragma omp cancel parallel if (clause)
        COUNT(passed);
#pragma omp cancellation point parallel
        COUNT(passed);
#pragma omp barrier
#pragma omp for schedule(dynamic, 3)
        for (int i = 0; i < SIZE; i++) {
#pragma omp cancel for if (clause)
            COUNT(counts[0][i]);
#pragma omp cancellation point for
        }
#pragma omp for
        for (int i = 0; i < SIZE; i++) {
            COUNT(counts[1][i]);
#pragma omp cancel for if (clause)
#pragma omp cancellation point for
        }
#pragma omp sections
        {
#pragma omp section
            do { // clang-format 14 loses the level behind a plain block here
#pragma omp cancel sections if (clause)
                COUNT(sections[0]);
            } while (false);
#pragma omp section
            {
                COUNT(sections[1]);
#pragma omp cancellation point sections
            }
        }
#pragma omp single
        {
#pragma omp taskgroup
            {
                for (int k = 0; k < SIZE; k++) {
#pragma omp task firstprivate(k)
                    {
#pragma omp cancel taskgroup if (clause)
                        COUNT(counts[2][k]);
#pragma omp cancellation point taskgroup
                    }
                }
            }
        }
        COUNT(passed);
    }
    CHECK(passed == 3 * asked() && sections[0] == 1 && sections[1] == 1, "%d, %d, %d", passed, sections[0], sections[1]);
#pragma omp parallel for schedule(dynamic)
    for (int i = 0; i < SIZE; i++) {
        COUNT(counts[3][i]);
#pragma omp cancel for if (clause)
    }
#pragma omp taskgroup
    for (int k = 0; k < SIZE; k++) {
#pragma omp task firstprivate(k)
        {
#pragma omp cancel taskgroup if (clause)
            COUNT(counts[4][k]);
        }
    }
    for (int k = 0; k < 5; k++)
        check_each(counts[k], SIZE, 1, "counts");
    return told();
}
