// Loops of unsigned long long: across the middle, to ULLONG_MAX, down to 0, in steps above 2^63, of each schedule.
// steps: loop dynamic, loop guided, next, end_nowait
#include "../check.h"

typedef unsigned long long wide;

int main(void) {
    int done[60] = {0}, few = 0, many = 0, turn = 0, halves[6] = {0};
    const wide most = ULLONG_MAX, half = 1ull << 63;
    wide huge = half + 5;
#pragma omp parallel
    {
#pragma omp for schedule(dynamic)
        for (wide i = most - 60; i < most; i++)
            COUNT(done[i - (most - 60)]);
#pragma omp for schedule(dynamic, 7)
        for (wide i = half - 30; i < half + 30; i++)
            COUNT(done[i - (half - 30)]);
#pragma omp for schedule(guided, 3)
        for (wide i = 60; i > 0; i--)
            COUNT(done[i - 1]);
#pragma omp for schedule(runtime)
        for (wide i = most; i > most - 60; i--)
            COUNT(done[most - i]);
#pragma omp for schedule(dynamic, 1000)
        for (wide i = most - 60; i < most; i++)
            COUNT(done[i - (most - 60)]);
#pragma omp for schedule(dynamic) nowait
        for (wide i = 0; i < huge; i += huge)
            COUNT(few);
#pragma omp for schedule(guided)
        for (wide i = most; i > most - 10; i -= 10)
            COUNT(few);
#pragma omp for schedule(dynamic, 2) nowait
        for (wide i = 0; i < most - (1ull << 60); i += 1ull << 57)
            COUNT(many);
#pragma omp for schedule(guided, 2)
        for (wide i = most; i > 1ull << 60; i -= 1ull << 57)
            COUNT(many);
#pragma omp for schedule(static, 4) ordered
        for (wide i = most - 60; i < most; i++)
#pragma omp ordered
        {
            CHECK((wide)turn == i - (most - 60), "iteration %llu, turn %d", i, turn);
            turn++;
        }
#pragma omp for schedule(runtime)
        for (wide i = half - 30; i < half + 30; i += 10)
            COUNT(halves[(i - (half - 30)) / 10]);
    }
#pragma omp parallel for schedule(dynamic, 3)
    for (wide i = half - 30; i < half + 30; i++)
        COUNT(done[i - (half - 30)]);
    check_each(done, 60, 6, "iteration");
    check_each(halves, 6, 1, "iteration across the middle");
    CHECK(few == 2, "%d iterations of large steps", few);
    CHECK(many == 120 + 120, "%d iterations in steps of 2^57", many);
    CHECK(turn == 60, "%d", turn);
    return told();
}
