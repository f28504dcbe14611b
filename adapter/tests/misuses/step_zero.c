// E12 ZeroStep: a step of 0, known at run time alone.
// words: #pragma omp for
#include "../check.h"

int main(void) {
    int done[10] = {0}, step = asked() / 100;
#pragma omp parallel
    {
#pragma omp for schedule(dynamic)
        for (int i = 0; i < 10; i += step)
            COUNT(done[i]);
    }
    check_each(done, 10, 1, "iteration");
    return told();
}
