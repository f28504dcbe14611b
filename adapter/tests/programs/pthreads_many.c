// Threads of the program's own that come and go, each with a region: nothing of an ended one stays behind.
// threads: 1 4
// flags: -pthread
// steps: region_end
#include "../check.h"
#include <pthread.h>

static int members;

static void *begun(void *unused) {
#pragma omp parallel
    COUNT(members);
    return unused;
}

int main(void) {
    for (int round = 0; round < 100; round++) {
        pthread_t own;
        if (pthread_create(&own, NULL, begun, NULL))
            return 1;
        pthread_join(own, NULL);
    }
    CHECK(members == 100 * asked(), "%d members", members);
    return told();
}
