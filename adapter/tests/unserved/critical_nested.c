// #pragma omp critical (ledger): a critical region in a nested region.
#include "../check.h"

int main(void) {
    int count = 0;
#pragma omp parallel
    {
#pragma omp parallel
        {
#pragma omp critical(ledger)
            count++;
        }
    }
    CHECK(count == asked(), "%d", count);
    return told();
}
