// One member creates tasks, and all execute them at a barrier, each member one: each waits until all have begun.
// steps: task, barrier, task_end
#include "../check.h"

int main(void) {
    int begun = 0, ended = 0, by[64] = {0};
#pragma omp parallel
    for (int round = 1; round <= 3; round++) {
        int n = omp_get_num_threads();
        if (omp_get_thread_num() == round % n)
            for (int k = 0; k < n; k++)
#pragma omp task firstprivate(n, round)
            {
                COUNT(by[omp_get_thread_num()]);
                COUNT(begun);
                while (__atomic_load_n(&begun, __ATOMIC_SEQ_CST) < round * n)
                    usleep(100);
                COUNT(ended);
            }
#pragma omp barrier
        CHECK(ended >= round * n, "round %d: %d have ended", round, ended);
        CHECK(by[omp_get_thread_num()] >= round, "round %d: %d were mine", round, by[omp_get_thread_num()]);
#pragma omp barrier
    }
    check_each(by, asked(), 3, "member");
    return told();
}
