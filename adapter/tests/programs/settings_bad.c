// Words of the environment that are no good are ignored, and named on standard error; the program runs on.
// threads: 4
// environment: OMP_SCHEDULE=dynamic,-1
// environment: OMP_SCHEDULE=fast
// environment: OMP_SCHEDULE=guided,0
// err: ignored OMP_SCHEDULE
// steps: loop
#include "../check.h"

int main(void) {
    int done[50] = {0};
#pragma omp parallel
    {
#pragma omp for schedule(runtime)
        for (int i = 0; i < 50; i++)
            COUNT(done[i]);
    }
    check_each(done, 50, 1, "iteration");
    return told();
}
