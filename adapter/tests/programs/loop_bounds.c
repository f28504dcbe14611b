// Loops near the ends of long: neither an iteration nor the end of a chunk runs over.
// steps: loop dynamic 1, loop dynamic 3, loop guided 2, next
#include "../check.h"

int main(void) {
    int low[40] = {0}, high[40] = {0}, threes[40] = {0}, turn = 0;
    const long most = LONG_MAX, least = LONG_MIN;
#pragma omp parallel
    {
#pragma omp for schedule(dynamic)
        for (long i = most - 40; i < most; i++)
            COUNT(high[i - (most - 40)]);
#pragma omp for schedule(dynamic, 3)
        for (long i = most - 40; i < most; i++)
            COUNT(high[i - (most - 40)]);
#pragma omp for schedule(guided, 30)
        for (long i = most - 40; i < most; i++)
            COUNT(high[i - (most - 40)]);
#pragma omp for schedule(dynamic, 1000)
        for (long i = most - 40; i < most; i++)
            COUNT(high[i - (most - 40)]);
#pragma omp for schedule(runtime)
        for (long i = least + 40; i > least; i--)
            COUNT(low[i - least - 1]);
#pragma omp for schedule(dynamic, 7)
        for (long i = least + 40; i > least; i--)
            COUNT(low[i - least - 1]);
#pragma omp for schedule(guided, 2)
        for (long i = least; i < least + 40; i++)
            COUNT(low[i - least]);
#pragma omp for schedule(dynamic, 5)
        for (long i = most; i > most - 40; i--)
            COUNT(high[most - i]);
#pragma omp for schedule(dynamic, 4)
        for (long i = most - 40; i < most - 2; i += 3)
            COUNT(threes[i - (most - 40)]);
#pragma omp for schedule(static, 6) ordered
        for (long i = most - 40; i < most; i++)
#pragma omp ordered
        {
            CHECK(turn == i - (most - 40), "iteration %ld, turn %d", i, turn);
            turn++;
        }
    }
    check_each(high, 40, 5, "iteration near the end");
    check_each(low, 40, 3, "iteration near the beginning");
    for (int i = 0; i < 40; i++)
        CHECK(threes[i] == (i < 38 && i % 3 == 0), "iteration %d: %d times", i, threes[i]);
    CHECK(turn == 40, "%d", turn);
    return told();
}
