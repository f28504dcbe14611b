// taskwait with depend waits for the children that its items name, and for no other: one of these ends after it alone.
// threads: 2 4 16 64
// steps: taskwait in, taskwait inout, taskwait
#include "../check.h"

static int named, other, passed, ended;

int main(void) {
#pragma omp parallel
#pragma omp single
    {
        int is_begun = 0;
#pragma omp task depend(out : other) shared(is_begun)
        {
            __atomic_store_n(&is_begun, 1, __ATOMIC_SEQ_CST);
            while (!__atomic_load_n(&passed, __ATOMIC_SEQ_CST))
                usleep(100);
            COUNT(ended);
        }
        // so that no member begins it in the wait below
        while (!__atomic_load_n(&is_begun, __ATOMIC_SEQ_CST))
            usleep(100);
        for (int k = 0; k < 10; k++)
#pragma omp task depend(inout : named)
            named++;
#pragma omp taskwait depend(in : named)
        CHECK(named == 10 && ended == 0, "%d, %d", named, ended);
#pragma omp taskwait depend(inout : named)
        __atomic_store_n(&passed, 1, __ATOMIC_SEQ_CST);
#pragma omp taskwait
        CHECK(ended == 1, "%d", ended);
    }
    return told();
}
