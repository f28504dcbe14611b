// E12 ZeroStep: a step of 0 of a parallel for, of unsigned long long.
// words: #pragma omp for|#pragma omp parallel for
#include "../check.h"

int main(void) {
    int done[10] = {0};
    unsigned long long step = asked() / 100;
#pragma omp parallel for schedule(guided)
    for (unsigned long long i = 0; i < 10; i += step)
        COUNT(done[i]);
    check_each(done, 10, 1, "iteration");
    return told();
}
