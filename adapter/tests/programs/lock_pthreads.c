// Threads of the program's own: each has locks of its own for its regions.
// flags: -pthread
// steps: lock_init, set 0, unset 0
#include "../check.h"
#include <pthread.h>

static void *begun(void *word) {
    int *count = word;
    omp_lock_t lock;
    omp_init_lock(&lock);
    for (int round = 0; round < 3; round++) {
#pragma omp parallel
        {
            omp_set_lock(&lock);
            ++*count;
            omp_unset_lock(&lock);
        }
    }
    omp_destroy_lock(&lock);
    return NULL;
}

int main(void) {
    pthread_t own[3];
    int counts[3] = {0};
    for (int k = 0; k < 3; k++)
        if (pthread_create(&own[k], NULL, begun, &counts[k]))
            return 1;
    for (int k = 0; k < 3; k++)
        pthread_join(own[k], NULL);
    check_each(counts, 3, 3 * asked(), "lock");
    return told();
}
