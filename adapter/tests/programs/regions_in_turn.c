// Threads of the program's own with one region right behind the other: a team that one gives back another takes at once, while
// members are still on their way out, or behind a task that they were given at the region's end. No member has its reply from the
// next region, and none asks that one.
// threads: 2 4
// flags: -pthread
// steps: region_end, loop dynamic 1
#include "../check.h"
#include <pthread.h>

enum { THREADS = 4, ROUNDS = 50 };

static int members, inner, tasks, done[THREADS];

static void *begun(void *argument) {
    int *own = argument;
    for (int round = 0; round < ROUNDS; round++) {
#pragma omp parallel num_threads(2)
        {
            COUNT(members);
#pragma omp parallel num_threads(2)
            COUNT(inner);
        }
#pragma omp parallel num_threads(4)
        for (int i = 0; i < 4; i++)
#pragma omp task
            COUNT(tasks);
#pragma omp parallel num_threads(1 + round % 2)
#pragma omp for schedule(dynamic)
        for (int i = 0; i < 4; i++)
            COUNT(*own);
    }
    return NULL;
}

int main(void) {
    pthread_t threads[THREADS];
    omp_set_max_active_levels(2);
    for (int i = 0; i < THREADS; i++)
        if (pthread_create(&threads[i], NULL, begun, &done[i]))
            return 1;
    for (int i = 0; i < THREADS; i++)
        pthread_join(threads[i], NULL);
    CHECK(members == THREADS * ROUNDS * 2, "%d members", members);
    CHECK(inner >= members && inner <= 2 * members, "%d members of nested regions", inner);
    CHECK(tasks == THREADS * ROUNDS * 16, "%d tasks", tasks);
    for (int i = 0; i < THREADS; i++)
        CHECK(done[i] == ROUNDS * 4, "thread %d: %d iterations", i, done[i]);
    return told();
}
