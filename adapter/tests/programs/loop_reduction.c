// Reductions of loops, with and without a barrier, of an array, of a long double.
// steps: loop dynamic 3, loop guided 1, barrier
#include "../check.h"

int main(void) {
    long sum = 5, least = 1000, late = 0;
    int table[4] = {0};
    long double wide = 1;
#pragma omp parallel
    {
#pragma omp for schedule(dynamic, 3) reduction(+ : sum)
        for (int i = 0; i < 100; i++)
            sum += i;
        CHECK(sum == 5 + 4950, "%ld", sum);
#pragma omp for schedule(guided) reduction(+ : table, wide) nowait
        for (int i = 0; i < 100; i++) {
            table[i % 4]++;
            wide += i;
        }
#pragma omp for schedule(dynamic, 3) reduction(min : least) nowait
        for (int i = 100; i > 0; i--)
            least = i < least ? i : least;
#pragma omp for schedule(runtime) reduction(+ : late) nowait
        for (int i = 0; i < 100; i++)
            late += i;
#pragma omp barrier
        CHECK(late == 4950 && least == 1, "%ld %ld", late, least);
    }
    for (int k = 0; k < 4; k++)
        CHECK(table[k] == 25, "%d", table[k]);
    CHECK(wide == 4951, "%Lf", wide);
    return told();
}
