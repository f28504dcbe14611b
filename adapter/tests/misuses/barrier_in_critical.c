// E11 HoldsCritical: a barrier in a critical region, reached through a function.
// words: #pragma omp barrier, inside of #pragma omp critical (ledger)
#include "../check.h"

__attribute__((noinline)) static void meet(void) {
#pragma omp barrier
}

int main(void) {
    int count = 0;
#pragma omp parallel
    {
#pragma omp critical(ledger)
        {
            count++;
            meet();
        }
    }
    CHECK(count == asked(), "%d", count);
    return told();
}
