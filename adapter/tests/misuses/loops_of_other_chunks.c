// E35 Mismatch: the members' loops have other chunks.
// words: #pragma omp for
#include "../check.h"

int main(void) {
    int done[100] = {0}, owner[100];
#pragma omp parallel
    {
        int chunk = 3 + (omp_get_thread_num() == 1);
#pragma omp for schedule(dynamic, chunk)
        for (int i = 0; i < 100; i++) {
            COUNT(done[i]);
            owner[i] = chunk;
        }
    }
    check_each(done, 100, 1, "iteration");
    for (int i = 0; i < 100; i++)
        CHECK(owner[i] == owner[0], "iteration %d has another chunk than iteration 0", i);
    return told();
}
