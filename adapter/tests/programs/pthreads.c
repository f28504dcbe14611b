// Regions begun by threads of the program's own, three at a time: each has its own team, and its constructs outside of regions too.
// flags: -pthread
// steps: region_end, loop dynamic 3, single
#include "../check.h"
#include <pthread.h>

static int done[3][100], members[3][64], singles[3];

static void *begun(void *word) {
    long k = (long)word;
    for (int round = 0; round < 3; round++) {
#pragma omp single
        COUNT(singles[k]);
#pragma omp for schedule(dynamic, 3)
        for (int i = 0; i < 50; i++)
            COUNT(done[k][i]);
#pragma omp parallel
        {
            CHECK(omp_get_num_threads() == asked(), "%d members", omp_get_num_threads());
            COUNT(members[k][omp_get_thread_num()]);
#pragma omp for schedule(dynamic, 3)
            for (int i = 50; i < 100; i++)
                COUNT(done[k][i]);
        }
    }
    return NULL;
}

int main(void) {
    pthread_t own[3];
    for (long k = 0; k < 3; k++)
        if (pthread_create(&own[k], NULL, begun, (void *)k))
            return 1;
    for (int k = 0; k < 3; k++)
        pthread_join(own[k], NULL);
    for (int k = 0; k < 3; k++) {
        check_each(done[k], 100, 3, "iteration");
        check_each(members[k], asked(), 3, "member");
        CHECK(singles[k] == 3, "%d singles", singles[k]);
    }
    return told();
}
