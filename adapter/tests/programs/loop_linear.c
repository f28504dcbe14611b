// linear: each iteration sees the value of its number, and the last one's stays.
// steps: loop dynamic 3, loop guided 1, barrier
#include "../check.h"

int main(void) {
    int at = 10, other = 5;
#pragma omp parallel
    {
#pragma omp for schedule(dynamic, 3) linear(at : 2)
        for (int i = 0; i < 50; i++) {
            CHECK(at == 10 + 2 * i, "iteration %d, value %d", i, at);
            at += 2;
        }
#pragma omp for schedule(guided) linear(other : 1)
        for (int i = 0; i < 50; i++) {
            CHECK(other == 5 + i, "iteration %d, value %d", i, other);
            other++;
        }
    }
    CHECK(at == 110 && other == 55, "%d %d", at, other);
#pragma omp parallel for schedule(dynamic, 3) linear(at : 2)
    for (int i = 0; i < 50; i++) {
        CHECK(at == 110 + 2 * i, "iteration %d, value %d", i, at);
        at += 2;
    }
    CHECK(at == 210, "%d", at);
    return told();
}
