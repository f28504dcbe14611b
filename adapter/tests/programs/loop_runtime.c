// Loops whose schedule OMP_SCHEDULE names: each iteration is done once, and by the member that a static schedule says.
// environment: OMP_SCHEDULE=static
// environment: OMP_SCHEDULE=static,3
// environment: OMP_SCHEDULE=dynamic
// environment: OMP_SCHEDULE=dynamic,5
// environment: OMP_SCHEDULE=guided
// environment: OMP_SCHEDULE=GUIDED,4
// environment: OMP_SCHEDULE=auto
// environment: OMP_SCHEDULE=monotonic:dynamic,2
// environment: OMP_SCHEDULE=nonmonotonic:guided,2
// environment: OMP_SCHEDULE=monotonic:static,3
// environment:
// steps: loop runtime 0|loop static 0|loop static 3|loop dynamic 1|loop dynamic 5|loop guided 1|loop guided 4|loop dynamic 2|loop guided 2, next
#include "../check.h"
#include <strings.h>

#define ITERATIONS 203

// The member that a static schedule gives iteration i, or -1 if the schedule is another.
static int owner_of(int i, int n) {
    const char *schedule = getenv("OMP_SCHEDULE");
    const char *kind = schedule && strchr(schedule, ':') ? strchr(schedule, ':') + 1 : schedule;
    if (!kind || strncasecmp(kind, "static", 6))
        return -1;
    if (strchr(kind, ','))
        return i / atoi(strchr(kind, ',') + 1) % n;
    int share = ITERATIONS / n, more = ITERATIONS % n;
    return i < more * (share + 1) ? i / (share + 1) : (i - more) / share;
}

int main(void) {
    int done[ITERATIONS] = {0}, owner[ITERATIONS];
#pragma omp parallel
    {
#pragma omp for schedule(runtime)
        for (int i = 0; i < ITERATIONS; i++) {
            COUNT(done[i]);
            owner[i] = omp_get_thread_num();
        }
#pragma omp for schedule(runtime) nowait
        for (long i = 0; i < ITERATIONS; i++)
            COUNT(done[i]);
    }
#pragma omp parallel for schedule(runtime)
    for (int i = 0; i < ITERATIONS; i++)
        COUNT(done[i]);
    check_each(done, ITERATIONS, 3, "iteration");
    for (int i = 0; i < ITERATIONS; i++) {
        int expected = owner_of(i, asked());
        CHECK(expected == -1 || owner[i] == expected, "iteration %d is member %d's, not %d's", i, owner[i], expected);
    }
    return told();
}
