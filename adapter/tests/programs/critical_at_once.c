// Members in critical regions of two names at once: each waits there for the other.
// threads: 2 4 16
// steps: critical left, critical right
#include "../check.h"

static int is_left, is_right, is_over;

static void await(int *flag) {
    while (!__atomic_load_n(flag, __ATOMIC_SEQ_CST))
        usleep(100);
}

int main(void) {
#pragma omp parallel
    {
        if (omp_get_thread_num() == 0) {
#pragma omp critical(left)
            {
                __atomic_store_n(&is_left, 1, __ATOMIC_SEQ_CST);
                await(&is_right);
                is_over++;
            }
        }
        if (omp_get_thread_num() == 1) {
#pragma omp critical(right)
            {
                __atomic_store_n(&is_right, 1, __ATOMIC_SEQ_CST);
                await(&is_left);
            }
        }
#pragma omp critical(left)
        is_over++;
    }
    CHECK(is_over == asked() + 1, "%d", is_over);
    return told();
}
