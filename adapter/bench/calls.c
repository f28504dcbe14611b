// calls KIND COUNT RUNS: the least time of RUNS runs, in nanoseconds, that one call of this kind takes the team of
// OMP_NUM_THREADS, of COUNT in a region. adapter/bench/run has it run with several runtimes.
//
//   claim     an iteration of a loop of `dynamic, 1` that the members share
//   loop      a nowait loop of one iteration, which each member meets
//   barrier   a barrier of all members
//   single    a single with nowait, which each member meets
//   critical  a critical region, of any member: two calls
//   task      a task that one member creates and all execute
//   region    a parallel region with nothing in it; COUNT of them, one after another
//
// The clock stands before and behind the region, so a member that comes late counts.
#include <omp.h>
#include <stdio.h>
#include <stdlib.h>
#include <string.h>

static volatile long done;
static long count;

static void claims(void)
{
#pragma omp for schedule(dynamic, 1) nowait
    for (long i = 0; i < count; i++)
        done = i;
}

static void loops(void)
{
    for (long i = 0; i < count; i++) {
#pragma omp for schedule(dynamic, 1) nowait
        for (int k = 0; k < 1; k++)
            done = k;
    }
}

static void barriers(void)
{
    for (long i = 0; i < count; i++) {
#pragma omp barrier
    }
}

static void singles(void)
{
    for (long i = 0; i < count; i++) {
#pragma omp single nowait
        done = i;
    }
}

static void criticals(void)
{
    for (long i = omp_get_thread_num(); i < count; i += omp_get_num_threads()) {
#pragma omp critical
        done = i;
    }
}

static void tasks(void)
{
#pragma omp single
    for (long i = 0; i < count; i++) {
#pragma omp task firstprivate(i)
        done = i;
    }
}

static void regions(void)
{
    for (long i = 0; i < count; i++) {
#pragma omp parallel
        done = 0;
    }
}

static void in_region(void (*work)(void))
{
#pragma omp parallel
    work();
}

static const struct {
    const char *name;
    void (*work)(void);
} kinds[] = {{"claim", claims},       {"loop", loops}, {"barrier", barriers}, {"single", singles},
             {"critical", criticals}, {"task", tasks}, {"region", regions}};

static double least_of(void (*work)(void), int runs)
{
    double least = 1e9;
    for (int run = 0; run < runs; run++) {
        double began = omp_get_wtime();
        if (work == regions)
            work();
        else
            in_region(work);
        double took = omp_get_wtime() - began;
        least = took < least ? took : least;
    }
    return least;
}

int main(int words, char **word)
{
    count = words > 2 ? atol(word[2]) : 1000;
    int runs = words > 3 ? atoi(word[3]) : 10;
    for (size_t i = 0; words > 1 && i < sizeof kinds / sizeof *kinds; i++)
        if (strcmp(word[1], kinds[i].name) == 0) {
            printf("%.1f\n", least_of(kinds[i].work, runs) * 1e9 / (double)count);
            return 0;
        }
    fprintf(stderr, "usage: calls KIND COUNT RUNS\n");
    return 64;
}
