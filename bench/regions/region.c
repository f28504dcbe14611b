/* Empty parallel regions of libgomp, for bench/regions.py.
 *
 * region MEMBERS REGIONS RUNS BARRIERS     for each run: how many members its regions had together, and the nanoseconds that they took
 *
 * The members of a region meet at so many barriers before its end.
 * A region before the runs starts the threads, and counts them.
 */
#include <omp.h>
#include <stdio.h>
#include <stdlib.h>
#include <time.h>

static double now(void)
{
    struct timespec time;
    clock_gettime(CLOCK_MONOTONIC, &time);
    return time.tv_sec * 1e9 + time.tv_nsec;
}

int main(int count, char **words)
{
    if (count != 5 || atoi(words[1]) < 1) {
        fprintf(stderr, "region MEMBERS REGIONS RUNS BARRIERS\n");
        return 2;
    }
    int members = atoi(words[1]), barriers = atoi(words[4]);
    long regions = atol(words[2]);
    long met = 0;
#pragma omp parallel num_threads(members) reduction(+ : met)
    met++;
    for (int run = 0; run < atoi(words[3]); run++) {
        double begun = now();
        for (long region = 0; region < regions; region++) {
#pragma omp parallel num_threads(members)
            for (int met_at = 0; met_at < barriers; met_at++) {
#pragma omp barrier
            }
        }
        printf("%ld %.0f\n", met * regions, now() - begun);
    }
    return 0;
}
