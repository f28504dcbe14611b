/* The works of work.rt.txt by a compiler's own OpenMP, for bench/shares.py: libgomp with gcc, libomp with clang.
 *
 * shares WORK MEMBERS COUNT RUNS     for each run: how many pieces the members were given together, and the nanoseconds from the first
 *                                    one's start to the last one's end
 */
#include <omp.h>
#include <stdint.h>
#include <stdio.h>
#include <stdlib.h>
#include <string.h>
#include <time.h>

#define MOST_MEMBERS 64

static struct {
    _Alignas(64) double begun, ended;
    uint64_t pieces;
} own[MOST_MEMBERS];

static double now(void)
{
    struct timespec time;
    clock_gettime(CLOCK_MONOTONIC, &time);
    return time.tv_sec * 1e9 + time.tv_nsec;
}

static uint64_t dynamic(int64_t count)
{
    uint64_t pieces = 0;
#pragma omp for schedule(dynamic, 1)
    for (int64_t value = 0; value < count; value++) {
        pieces++;
        __asm__ volatile("" : "+r"(pieces));
    }
    return pieces;
}

static uint64_t ordered(int64_t count)
{
    uint64_t pieces = 0;
#pragma omp for schedule(dynamic, 1) ordered
    for (int64_t value = 0; value < count; value++) {
#pragma omp ordered
        pieces++;
        __asm__ volatile("" : "+r"(pieces));
    }
    return pieces;
}

static uint64_t nowait(int64_t count)
{
    uint64_t pieces = 0;
    for (int64_t each = 0; each < count; each++) {
#pragma omp for schedule(dynamic, 1) nowait
        for (int value = 0; value < 64; value++) {
            pieces++;
            __asm__ volatile("" : "+r"(pieces));
        }
    }
    return pieces;
}

/* Here a piece has many iterations, and how many pieces there are no compiler tells: the iterations are counted instead. */
static uint64_t guided(int64_t count)
{
    uint64_t iterations = 0;
    for (int64_t each = 0; each < count; each++) {
#pragma omp for schedule(guided, 1) nowait
        for (int value = 0; value < 1000; value++) {
            iterations++;
        }
        __asm__ volatile("" : "+r"(iterations));
    }
    return iterations;
}

static uint64_t sections(int64_t count)
{
    uint64_t pieces = 0;
    for (int64_t each = 0; each < count; each++) {
#pragma omp sections nowait
        {
#pragma omp section
            pieces++;
#pragma omp section
            pieces++;
#pragma omp section
            pieces++;
#pragma omp section
            pieces++;
        }
        __asm__ volatile("" : "+r"(pieces));
    }
    return pieces;
}

static uint64_t single(int64_t count)
{
    uint64_t pieces = 0;
    for (int64_t each = 0; each < count; each++) {
#pragma omp single
        pieces++;
        __asm__ volatile("" : "+r"(pieces));
    }
    return pieces;
}

static uint64_t barrier(int64_t count)
{
    for (int64_t each = 0; each < count; each++) {
#pragma omp barrier
    }
    return 0;
}

static const struct {
    const char *name;
    uint64_t (*work)(int64_t count);
} works[] = {
    {"dynamic", dynamic},   {"ordered", ordered}, {"nowait", nowait},   {"guided", guided},
    {"sections", sections}, {"single", single},   {"barrier", barrier},
};

int main(int count, char **words)
{
    uint64_t (*work)(int64_t) = NULL;
    for (size_t place = 0; count == 5 && place < sizeof works / sizeof *works; place++) {
        if (strcmp(works[place].name, words[1]) == 0) {
            work = works[place].work;
        }
    }
    int members = work ? atoi(words[2]) : 0;
    if (members < 1 || members > MOST_MEMBERS) {
        fprintf(stderr, "shares WORK MEMBERS COUNT RUNS\n");
        return 2;
    }
    omp_set_dynamic(0);
    for (int run = 0; run < atoi(words[4]); run++) {
#pragma omp parallel num_threads(members)
        {
            int member = omp_get_thread_num();
#pragma omp barrier
            own[member].begun = now();
            own[member].pieces = work(atoll(words[3]));
            own[member].ended = now();
        }
        double begun = own[0].begun, ended = own[0].ended;
        uint64_t pieces = 0;
        for (int member = 0; member < members; member++) {
            begun = own[member].begun < begun ? own[member].begun : begun;
            ended = own[member].ended > ended ? own[member].ended : ended;
            pieces += own[member].pieces;
        }
        printf("%llu %.0f\n", (unsigned long long)pieces, ended - begun);
    }
    return 0;
}
