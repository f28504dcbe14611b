// E35 Mismatch: the members' loops have other bounds.
// words: #pragma omp for
#include "../check.h"

int main(void) {
    int done[120] = {0};
#pragma omp parallel
    {
        int end = 100 + 10 * (omp_get_thread_num() == 1);
#pragma omp for schedule(dynamic, 3)
        for (int i = 0; i < end; i++)
            COUNT(done[i]);
    }
    check_each(done, 110, 1, "iteration");
    return told();
}
