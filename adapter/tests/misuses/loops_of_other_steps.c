// E35 Mismatch: the members' loops have other steps.
// words: #pragma omp for
#include "../check.h"

int main(void) {
    int done[101] = {0};
#pragma omp parallel
    {
        int step = 1 + (omp_get_thread_num() == 1);
#pragma omp for schedule(guided)
        for (int i = 0; i < 100; i += step)
            COUNT(done[i]);
    }
    check_each(done, 100, 1, "iteration");
    return told();
}
