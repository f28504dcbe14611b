// E30 AlreadyHeld: a critical region in one of the same name, reached through a function.
// words: #pragma omp critical (ledger), inside of #pragma omp critical (ledger)
// lacks: task
#include "../check.h"

static int ledger;

__attribute__((noinline)) static void add(int amount) {
#pragma omp critical(ledger)
    ledger += amount;
}

int main(void) {
#pragma omp parallel
    {
#pragma omp critical(ledger)
        {
            ledger++;
            add(2);
        }
    }
    CHECK(ledger == 3 * asked(), "%d", ledger);
    return told();
}
