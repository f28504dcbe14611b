// #pragma omp critical (ledger): a name that two threads of the program's own use, each in regions of its own.
#include "../check.h"
#include <pthread.h>

static int count;

static void *begun(void *unused) {
#pragma omp parallel
    {
#pragma omp critical(ledger)
        count++;
    }
    return unused;
}

int main(void) {
    pthread_t thread;
    begun(NULL);
    if (pthread_create(&thread, NULL, begun, NULL))
        return 1;
    pthread_join(thread, NULL);
    CHECK(count == 2 * asked(), "%d", count);
    return told();
}
