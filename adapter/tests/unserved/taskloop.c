// GOMP_taskloop: a taskloop.
#include "../check.h"

int main(void) {
    int done[20] = {0};
#pragma omp parallel
    {
#pragma omp single
        {
#pragma omp taskloop
            for (int i = 0; i < 20; i++)
                COUNT(done[i]);
        }
    }
    check_each(done, 20, 1, "iteration");
    return told();
}
