// 75: two members stand in critical regions of two names, and each waits for the other's.
// threads: 2
// words: deadlock, #pragma omp critical (left), #pragma omp critical (right), inside of
#include "../check.h"

static int inside;

static void meet(void) {
    __atomic_add_fetch(&inside, 1, __ATOMIC_SEQ_CST);
    while (__atomic_load_n(&inside, __ATOMIC_SEQ_CST) < 2)
        usleep(100);
}

int main(void) {
    int count = 0;
#pragma omp parallel
    {
        if (omp_get_thread_num() == 0) {
#pragma omp critical(left)
            {
                meet();
#pragma omp critical(right)
                count++;
            }
        } else {
#pragma omp critical(right)
            {
                meet();
#pragma omp critical(left)
                count++;
            }
        }
    }
    CHECK(count == 2, "%d", count);
    return told();
}
