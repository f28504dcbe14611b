/* A claim through gomp_claim, timed beside a bare atomic addition and libgomp, for bench/ring.py.
 *
 * ring check THREADS CHUNK      claims a loop of 10^7 iterations; the status is 1 if one of them was not taken once
 * ring KIND THREADS RUNS        for each run: ns an iteration of a loop of 10^7 in chunks of 1, from the first thread's start to the
 *                               last one's end; and how much of that time the threads had a processor, in percent
 * ring cycle KIND               ns from opening a work-share of one piece to leaving it, by a team of one
 *
 * KIND is claim, add or libgomp; of a cycle claim_loop, claim_single, libgomp_loop or libgomp_single.
 */
#include <omp.h>
#include <pthread.h>
#include <stdbool.h>
#include <stdint.h>
#include <stdio.h>
#include <stdlib.h>
#include <string.h>
#include <time.h>

#define ITERATIONS 10000000UL
#define CYCLES 1000000
#define MOST_THREADS 64

struct piece {
    uint64_t first, end;
};

struct passed {
    bool done, executes;
};

bool claim_open(int64_t end, int64_t chunk, void *places[], size_t members);
bool claim_enter(void *member);
struct piece claim_next(void *member);
bool claim_leave(void *member);
struct passed claim_single(void *member);

static _Alignas(64) uint64_t word;
static void *members[MOST_THREADS];
static _Alignas(64) int ready;
static unsigned char *taken;
static int team_size;

/* What a thread did: when it began and ended, by the clock and by its own processor time, how many iterations it took, and their sum, so
 * that no compiler leaves them out. */
static struct work {
    _Alignas(64) double begin, end, busy_begin, busy_end;
    uint64_t count, sum;
} works[MOST_THREADS];

static double time_of(clockid_t clock)
{
    struct timespec time;
    clock_gettime(clock, &time);
    return time.tv_sec * 1e9 + time.tv_nsec;
}

static double now(void)
{
    return time_of(CLOCK_MONOTONIC);
}

/* Waits for the other threads with its processor kept, so that all of them run as they begin. */
static void meet(int threads)
{
    __atomic_fetch_add(&ready, 1, __ATOMIC_SEQ_CST);
    while (__atomic_load_n(&ready, __ATOMIC_SEQ_CST) < threads) {
    }
}

static void begin(struct work *work)
{
    meet(team_size);
    work->busy_begin = time_of(CLOCK_THREAD_CPUTIME_ID);
    work->begin = now();
}

static void end(struct work *work, uint64_t count, uint64_t sum)
{
    work->end = now();
    work->busy_end = time_of(CLOCK_THREAD_CPUTIME_ID);
    work->count = count, work->sum = sum;
}

static void refuse(const char *what)
{
    fprintf(stderr, "ring: %s\n", what);
    exit(2);
}

static void *claim(void *at)
{
    struct work *work = at;
    void *member = members[work - works];
    uint64_t count = 0, sum = 0;
    while (!claim_enter(member)) {
    }
    begin(work);
    for (;;) {
        struct piece piece = claim_next(member);
        if (piece.first == piece.end)
            break;
        count++;
        sum += piece.first;
    }
    end(work, count, sum);
    return NULL;
}

static void *mark(void *at)
{
    struct work *work = at;
    void *member = members[work - works];
    uint64_t count = 0;
    while (!claim_enter(member)) {
    }
    meet(team_size);
    for (;;) {
        struct piece piece = claim_next(member);
        if (piece.first == piece.end)
            break;
        if (piece.end > ITERATIONS)
            refuse("a piece ends past the loop");
        for (uint64_t i = piece.first; i < piece.end; i++, count++)
            __atomic_fetch_add(&taken[i], 1, __ATOMIC_SEQ_CST);
    }
    work->count = count;
    if (!claim_leave(member))
        refuse("the share was not left");
    return NULL;
}

static void *add(void *at)
{
    struct work *work = at;
    uint64_t count = 0, sum = 0;
    begin(work);
    for (;;) {
        uint64_t ticket = __atomic_fetch_add(&word, 1, __ATOMIC_SEQ_CST);
        if (ticket >= ITERATIONS)
            break;
        count++;
        sum += ticket;
    }
    end(work, count, sum);
    return NULL;
}

static void on_threads(void *(*body)(void *), int threads)
{
    pthread_t ids[MOST_THREADS];
    ready = 0;
    team_size = threads;
    for (int i = 0; i < threads; i++)
        if (pthread_create(&ids[i], NULL, body, &works[i]))
            refuse("no thread");
    for (int i = 0; i < threads; i++)
        pthread_join(ids[i], NULL);
}

static void by_libgomp(int threads)
{
    ready = 0;
    team_size = threads;
#pragma omp parallel num_threads(threads)
    {
        struct work *work = &works[omp_get_thread_num()];
        uint64_t count = 0, sum = 0;
        begin(work);
#pragma omp for schedule(dynamic, 1) nowait
        for (uint64_t i = 0; i < ITERATIONS; i++) {
            count++;
            sum += i;
        }
        end(work, count, sum);
    }
}

static void open_loop(int64_t end, int64_t chunk, int threads)
{
    if (!claim_open(end, chunk, members, threads))
        refuse("the team was not opened");
}

static void run(const char *kind, int threads)
{
    if (!strcmp(kind, "claim")) {
        open_loop(ITERATIONS, 1, threads);
        on_threads(claim, threads);
    } else if (!strcmp(kind, "add")) {
        word = 0;
        on_threads(add, threads);
    } else if (!strcmp(kind, "libgomp")) {
        by_libgomp(threads);
    } else {
        refuse("no such kind");
    }
    double first = works[0].begin, last = works[0].end, busy = 0;
    uint64_t all = 0, sum = 0;
    for (int i = 0; i < threads; i++) {
        first = works[i].begin < first ? works[i].begin : first;
        last = works[i].end > last ? works[i].end : last;
        busy += works[i].busy_end - works[i].busy_begin;
        all += works[i].count, sum += works[i].sum;
    }
    if (all != ITERATIONS || sum != ITERATIONS * (ITERATIONS - 1) / 2)
        refuse("an iteration was not taken once");
    printf("%.3f %.0f\n", (last - first) / ITERATIONS, 100 * busy / threads / (last - first));
}

static int check(int threads, int64_t chunk)
{
    taken = calloc(ITERATIONS, 1);
    if (!taken)
        refuse("no memory");
    open_loop(ITERATIONS, chunk, threads);
    on_threads(mark, threads);
    uint64_t wrong = 0, all = 0;
    for (uint64_t i = 0; i < ITERATIONS; i++)
        wrong += taken[i] != 1;
    for (int i = 0; i < threads; i++)
        all += works[i].count;
    printf("%d threads, chunks of %ld: %lu iterations, %lu not taken once\n", threads, (long)chunk, all, wrong);
    return wrong != 0 || all != ITERATIONS;
}

static double claim_loops(void)
{
    open_loop(1, 1, 1);
    void *member = members[0];
    double start_time = now();
    for (int i = 0; i < CYCLES; i++) {
        if (!claim_enter(member) || claim_next(member).end != 1 || claim_next(member).end != 0 || !claim_leave(member))
            refuse("a work-share of one piece went wrong");
    }
    return now() - start_time;
}

static double claim_singles(void)
{
    open_loop(1, 1, 1);
    void *member = members[0];
    double start_time = now();
    for (int i = 0; i < CYCLES; i++) {
        struct passed passed = claim_single(member);
        if (!passed.done || !passed.executes)
            refuse("a single went wrong");
    }
    return now() - start_time;
}

static double libgomp_cycle(bool single)
{
    double spent = 0;
#pragma omp parallel num_threads(1)
    {
        double start_time = now();
        if (single) {
            for (int i = 0; i < CYCLES; i++) {
#pragma omp single nowait
                __asm__ volatile("");
            }
        } else {
            for (int i = 0; i < CYCLES; i++) {
#pragma omp for schedule(dynamic, 1) nowait
                for (int k = 0; k < 1; k++)
                    __asm__ volatile("");
            }
        }
        spent = now() - start_time;
    }
    return spent;
}

int main(int count, char **words)
{
    if (count == 4 && !strcmp(words[1], "check"))
        return check(atoi(words[2]), atoll(words[3]));
    if (count == 3 && !strcmp(words[1], "cycle")) {
        bool single = strstr(words[2], "single") != NULL;
        double spent = !strstr(words[2], "claim") ? libgomp_cycle(single) : single ? claim_singles() : claim_loops();
        printf("%.3f\n", spent / CYCLES);
        return 0;
    }
    if (count != 4 || atoi(words[2]) < 1 || atoi(words[2]) > MOST_THREADS)
        refuse("ring check THREADS CHUNK, ring KIND THREADS RUNS or ring cycle KIND");
    for (int run_number = 0; run_number < atoi(words[3]); run_number++)
        run(words[1], atoi(words[2]));
    return 0;
}
