// depend orders the children of one task alone: those of two tasks on one address run together, each waits for the other.
// threads: 4 16 64
// steps: task inout, taskwait
#include "../check.h"

static int address, begun;

static void meet(void) {
    COUNT(begun);
    while (__atomic_load_n(&begun, __ATOMIC_SEQ_CST) < 2)
        usleep(100);
}

int main(void) {
#pragma omp parallel
#pragma omp single
    {
        for (int k = 0; k < 2; k++)
#pragma omp task
        {
#pragma omp task depend(out : address)
            meet();
#pragma omp taskwait
        }
    }
    CHECK(begun == 2, "%d", begun);
    return told();
}
