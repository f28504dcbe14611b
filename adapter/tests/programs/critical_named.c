// Critical regions of two names and of none: each guards its own sum, and one may stand in another.
// steps: critical ledger, critical_end ledger, critical journal, critical_end journal, critical
#include "../check.h"

static int ledger, journal, both;

static void add_to_ledger(int amount) {
#pragma omp critical(ledger)
    ledger += amount;
}

int main(void) {
    int n = asked();
#pragma omp parallel
    for (int k = 1; k <= 10; k++) {
        add_to_ledger(k);
#pragma omp critical(journal) hint(omp_sync_hint_contended)
        {
            journal++;
            add_to_ledger(1);
        }
#pragma omp critical
        both += 2;
    }
    CHECK(ledger == n * 65, "%d", ledger);
    CHECK(journal == n * 10, "%d", journal);
    CHECK(both == n * 20, "%d", both);
    return told();
}
