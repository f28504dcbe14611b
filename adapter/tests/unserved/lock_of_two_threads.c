// omp_set_lock of lock 0: a lock of main's that a thread of the program's own sets, outside of main's teams.
#include "../check.h"
#include <pthread.h>

static omp_lock_t lock;
static int count;

static void *begun(void *unused) {
    omp_set_lock(&lock);
    count++;
    omp_unset_lock(&lock);
    return unused;
}

int main(void) {
    pthread_t thread;
    omp_init_lock(&lock);
    if (pthread_create(&thread, NULL, begun, NULL))
        return 1;
    pthread_join(thread, NULL);
    CHECK(count == 1, "%d", count);
    return told();
}
