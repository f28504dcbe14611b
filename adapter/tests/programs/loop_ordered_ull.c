// Ordered parts of loops of unsigned long long: up to ULLONG_MAX, down to 0, across the middle, in steps.
// steps: loop dynamic, loop guided, loop static, ordered
#include "../check.h"

typedef unsigned long long wide;

int main(void) {
    const wide most = ULLONG_MAX, half = 1ull << 63;
    wide next = most - 50;
#pragma omp parallel
    {
#pragma omp for schedule(dynamic, 3) ordered
        for (wide i = most - 50; i < most; i++)
#pragma omp ordered
            CHECK(i == next++, "iteration %llu", i);
#pragma omp single
        {
            CHECK(next == most, "%llu", next);
            next = 50;
        }
#pragma omp for schedule(guided) ordered
        for (wide i = 50; i > 0; i--)
#pragma omp ordered
            CHECK(i == next--, "iteration %llu", i);
#pragma omp single
        {
            CHECK(next == 0, "%llu", next);
            next = half - 30;
        }
#pragma omp for schedule(static, 2) ordered
        for (wide i = half - 30; i < half + 30; i += 3) {
#pragma omp ordered
            {
                CHECK(i == next, "iteration %llu", i);
                next += 3;
            }
        }
#pragma omp single
        {
            CHECK(next == half + 30, "%llu", next);
            next = 0;
        }
#pragma omp for schedule(runtime) ordered
        for (wide i = 0; i < most - (1ull << 60); i += 1ull << 58)
#pragma omp ordered
        {
            CHECK(i == next, "iteration %llu", i);
            next += 1ull << 58;
        }
    }
    CHECK(next == 60ull << 58, "%llu", next);
    return told();
}
