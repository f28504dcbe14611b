// A region with a loop of 100 iterations, a barrier and a single: what a healthy program does, for engines that are not.
#include "../check.h"

int main(void) {
    int done[100] = {0};
#pragma omp parallel
    {
#pragma omp for schedule(dynamic)
        for (int i = 0; i < 100; i++)
            COUNT(done[i]);
#pragma omp barrier
#pragma omp single
        check_each(done, 100, 1, "iteration");
    }
    return told();
}
