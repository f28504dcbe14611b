// Loops from one end of long to the other, in large steps: they span more than LONG_MAX. (libgomp 12.2 hangs on them.)
// steps: loop dynamic 2, loop guided 1
#include "../check.h"

int main(void) {
    int up = 0, down = 0;
    const long most = LONG_MAX, least = LONG_MIN;
#pragma omp parallel
    {
#pragma omp for schedule(dynamic, 2)
        for (long i = least; i < -(least / 2); i += 1L << 57)
            COUNT(up);
#pragma omp for schedule(guided)
        for (long i = most; i > least / 2; i -= 1L << 57)
            COUNT(down);
    }
    CHECK(up == 96 && down == 96, "%d and %d iterations", up, down);
    return told();
}
