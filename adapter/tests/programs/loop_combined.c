// parallel for, in one directive, of each schedule, with num_threads, if, reduction, and a chunk of a variable.
// steps: loop dynamic 1, loop dynamic 5, loop guided 1, loop guided 3, end_nowait|region_end
#include "../check.h"

#define ITERATIONS 150

int main(void) {
    int done[ITERATIONS] = {0}, chunk = 5, members = asked() / 2 + 1, turn = 0;
    long sum = 0;
#pragma omp parallel for schedule(dynamic)
    for (int i = 0; i < ITERATIONS; i++)
        COUNT(done[i]);
#pragma omp parallel for schedule(dynamic, chunk) num_threads(members) reduction(+ : sum)
    for (int i = 0; i < ITERATIONS; i++) {
        CHECK(omp_get_num_threads() == members, "%d members", omp_get_num_threads());
        COUNT(done[i]);
        sum += i;
    }
#pragma omp parallel for schedule(guided) if (chunk > 10)
    for (long i = 0; i < ITERATIONS; i++) {
        CHECK(omp_get_num_threads() == 1, "%d members", omp_get_num_threads());
        COUNT(done[i]);
    }
#pragma omp parallel for schedule(guided, 3) reduction(max : sum)
    for (unsigned i = 0; i < ITERATIONS; i++) {
        COUNT(done[i]);
        if (sum < i)
            sum = i;
    }
#pragma omp parallel for schedule(runtime)
    for (int i = 0; i < ITERATIONS; i++)
        COUNT(done[i]);
#pragma omp parallel for schedule(static, 4)
    for (int i = 0; i < ITERATIONS; i++)
        COUNT(done[i]);
#pragma omp parallel for schedule(dynamic, 2) ordered
    for (int i = 0; i < ITERATIONS; i++)
#pragma omp ordered
    {
        CHECK(turn == i, "iteration %d, turn %d", i, turn);
        turn++;
    }
#pragma omp parallel for schedule(auto) collapse(2)
    for (int i = 0; i < ITERATIONS / 10; i++)
        for (int k = 0; k < 10; k++)
            COUNT(done[10 * i + k]);
    check_each(done, ITERATIONS, 7, "iteration");
    CHECK(sum == ITERATIONS * (ITERATIONS - 1) / 2, "%ld", sum);
    CHECK(turn == ITERATIONS, "%d", turn);
    return told();
}
