// E14 LoopTooLong: a loop of more iterations than Dillbeam's 2^39.
// words: #pragma omp for
// limit: yes
#include "../check.h"

int main(void) {
    long end = (1L << 39) + 1, done = 0;
#pragma omp parallel
    {
#pragma omp for schedule(dynamic, 1L << 36) reduction(+ : done)
        for (long i = 0; i < end; i++)
            done++;
    }
    CHECK(done == end, "%ld", done);
    return told();
}
