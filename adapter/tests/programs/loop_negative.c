// Loops that count down, by 1 and more, of each schedule, and down to below 0.
// steps: loop dynamic 1, loop dynamic 4, loop guided 2, ordered
#include "../check.h"

int main(void) {
    int done[200] = {0}, threes[200] = {0}, sevens[200] = {0}, turn = 99;
    int step = -7;
#pragma omp parallel
    {
#pragma omp for schedule(dynamic)
        for (int i = 199; i >= 0; i--)
            COUNT(done[i]);
#pragma omp for schedule(dynamic, 4)
        for (int i = 199; i > -1; i -= 3)
            COUNT(threes[i]);
#pragma omp for schedule(guided, 2)
        for (long i = 99; i > -101; i += step)
            COUNT(sevens[i + 100]);
#pragma omp for schedule(runtime)
        for (int i = 199; i >= 0; i -= 3)
            COUNT(threes[i]);
#pragma omp for schedule(dynamic, 2) ordered
        for (int i = 99; i >= -20; i -= 5) {
#pragma omp ordered
            {
                CHECK(turn == i, "iteration %d, turn %d", i, turn);
                turn -= 5;
            }
        }
    }
    check_each(done, 200, 1, "iteration");
    for (int i = 0; i < 200; i++) {
        CHECK(threes[i] == (i % 3 == 199 % 3) * 2, "iteration %d: %d times", i, threes[i]);
        CHECK(sevens[i] == (i <= 199 && (199 - i) % 7 == 0), "iteration %d: %d times", i - 100, sevens[i]);
    }
    CHECK(turn == -21, "%d", turn);
    return told();
}
