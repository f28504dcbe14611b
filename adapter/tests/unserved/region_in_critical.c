// a critical name or a lock, by #pragma omp critical (ledger): a region that is begun in a critical region.
#include "../check.h"

int main(void) {
    int count = 0;
#pragma omp parallel
    {
#pragma omp critical(ledger)
        {
#pragma omp parallel num_threads(2)
            COUNT(count);
        }
    }
    CHECK(count > 0, "%d", count);
    return told();
}
