// Loop variables of each type: char to unsigned long, a pointer; and a simd loop in dynamic chunks.
// steps: loop dynamic 3, loop guided 1, loop dynamic 1
#include "../check.h"

int main(void) {
    int done[100] = {0}, letters[100] = {0};
    double values[100] = {0};
#pragma omp parallel
    {
#pragma omp for schedule(dynamic, 3)
        for (signed char i = -50; i < 50; i++)
            COUNT(done[i + 50]);
#pragma omp for schedule(dynamic, 3)
        for (unsigned char i = 0; i < 100; i++)
            COUNT(done[i]);
#pragma omp for schedule(guided)
        for (short i = 99; i >= 0; i--)
            COUNT(done[i]);
#pragma omp for schedule(dynamic)
        for (unsigned i = UINT_MAX - 100; i < UINT_MAX; i++)
            COUNT(done[i - (UINT_MAX - 100)]);
#pragma omp for schedule(dynamic, 3)
        for (int i = INT_MAX - 100; i < INT_MAX; i++)
            COUNT(done[i - (INT_MAX - 100)]);
#pragma omp for schedule(dynamic, 3)
        for (size_t i = 0; i != 100; i++)
            COUNT(done[i]);
#pragma omp for schedule(dynamic, 3)
        for (int *at = letters; at < letters + 100; at++)
            COUNT(*at);
#pragma omp for schedule(guided)
        for (int *at = letters + 99; at >= letters; at -= 2)
            COUNT(*at);
#pragma omp for simd schedule(dynamic, 8)
        for (int i = 0; i < 100; i++)
            values[i] += i * 0.5;
    }
    check_each(done, 100, 6, "iteration");
    for (int k = 0; k < 100; k++) {
        CHECK(letters[k] == 1 + k % 2, "place %d: %d times", k, letters[k]);
        CHECK(values[k] == k * 0.5, "place %d: %f", k, values[k]);
    }
    return told();
}
