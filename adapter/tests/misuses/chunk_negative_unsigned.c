// E13 BadChunk: a chunk of -1, known at run time alone, of a loop of unsigned long long: libgomp is given 2^64 - 1.
// words: #pragma omp for
#include "../check.h"

int main(void) {
    int done[100] = {0}, chunk = -asked() / asked();
#pragma omp parallel
    {
#pragma omp for schedule(dynamic, chunk)
        for (unsigned long long i = 0; i < 100; i++)
            COUNT(done[i]);
    }
    check_each(done, 100, 1, "iteration");
    return told();
}
