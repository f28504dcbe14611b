// A function of atexit and a destructor have regions of their own, after main.
// steps: region_end, loop dynamic 2
#include "../check.h"

static int done[3][10];

static void round_of(int k) {
#pragma omp parallel for schedule(dynamic, 2)
    for (int i = 0; i < 10; i++)
        COUNT(done[k][i]);
    check_each(done[k], 10, 1, "iteration");
}

static void late(void) {
    round_of(1);
}

__attribute__((destructor)) static void last(void) {
    round_of(2);
    fflush(stdout);
    if (told())
        _exit(1);
}

int main(void) {
    atexit(late);
    round_of(0);
    return told();
}
