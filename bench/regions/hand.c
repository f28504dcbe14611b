/* A model of how a caller hands a job to each of its workers and gets the outcomes, for bench/regions.py.
 *
 * hand KIND MEMBERS TIMES RUNS     for each run: how many jobs were done, and the nanoseconds that they took
 *
 * KIND is queue (as gomp_crew does: a queue for one job or outcome, and beside it a word that says whose turn it is), slot (one word says
 * both, and the job is copied in and out), or place (a word each way, and the job stays where it is). A job has WORDS words, and work on it
 * changes one.
 */
#include <pthread.h>
#include <stdatomic.h>
#include <stdint.h>
#include <stdio.h>
#include <stdlib.h>
#include <string.h>
#include <time.h>

#ifndef WORDS
#define WORDS 1
#endif

enum { MOST = 64, LINE = 128 };

typedef struct {
    uint64_t words[WORDS];
} job;

/* What a worker and its caller share. Each word that one of them waits for has a line of the cache. */
struct place {
    _Alignas(LINE) _Atomic uint64_t head, tail, stamp;
    _Alignas(LINE) job item;
    _Alignas(LINE) _Atomic uint64_t turn, sleepers;
    _Alignas(LINE) _Atomic uint64_t asked;
    _Alignas(LINE) _Atomic uint64_t done;
};

static struct place places[MOST];
static enum { QUEUE, SLOT, PLACE } kind;
static _Atomic int over;

static double now(void)
{
    struct timespec time;
    clock_gettime(CLOCK_MONOTONIC, &time);
    return time.tv_sec * 1e9 + time.tv_nsec;
}

/* Waits until the word is this one; false if all is over. */
static int wait_for(_Atomic uint64_t *word, uint64_t wanted)
{
    while (atomic_load(word) != wanted) {
        if (over)
            return 0;
        __builtin_ia32_pause();
    }
    return 1;
}

static void push(struct place *at, const job *from)
{
    uint64_t tail = atomic_load(&at->tail), seen = tail;
    wait_for(&at->stamp, tail);
    atomic_compare_exchange_strong(&at->tail, &seen, tail + 2);
    at->item = *from;
    atomic_store(&at->stamp, tail + 1);
}

static void pop(struct place *at, job *to)
{
    uint64_t head = atomic_load(&at->head), seen = head;
    wait_for(&at->stamp, head + 1);
    atomic_compare_exchange_strong(&at->head, &seen, head + 2);
    *to = at->item;
    atomic_store(&at->stamp, head + 2);
}

static void give_turn(struct place *at, uint64_t turn)
{
    atomic_store(&at->turn, turn);
    if (atomic_load(&at->sleepers))
        abort();
}

static __attribute__((noinline)) void work(job *at)
{
    at->words[0]++;
}

static void *serve(void *shared)
{
    struct place *at = shared;
    job own;
    for (uint64_t number = 1;; number++) {
        if (!wait_for(kind == QUEUE ? &at->turn : &at->asked, kind == PLACE ? number : 1))
            return NULL;
        if (kind == QUEUE) {
            pop(at, &own);
            work(&own);
            push(at, &own);
            give_turn(at, 0);
        } else if (kind == SLOT) {
            own = at->item;
            work(&own);
            at->item = own;
            atomic_store(&at->asked, 2);
        } else {
            work(&at->item);
            atomic_store(&at->done, number);
        }
    }
}

static void ask(struct place *at, const job *from, uint64_t number)
{
    if (kind == QUEUE) {
        push(at, from);
        give_turn(at, 1);
    } else {
        if (kind == SLOT)
            at->item = *from;
        atomic_store(&at->asked, kind == SLOT ? 1 : number);
    }
}

static void finish(struct place *at, job *to, uint64_t number)
{
    if (kind == QUEUE) {
        wait_for(&at->turn, 0);
        pop(at, to);
    } else {
        wait_for(kind == SLOT ? &at->asked : &at->done, kind == SLOT ? 2 : number);
        if (kind == SLOT)
            *to = at->item;
    }
}

int main(int count, char **words)
{
    static job jobs[MOST];
    pthread_t ids[MOST];
    if (count != 5 || atoi(words[2]) < 1 || atoi(words[2]) > MOST)
        return 2;
    kind = !strcmp(words[1], "queue") ? QUEUE : !strcmp(words[1], "slot") ? SLOT : PLACE;
    int members = atoi(words[2]);
    long times = atol(words[3]), number = 0;
    for (int i = 1; i < members; i++)
        if (pthread_create(&ids[i], NULL, serve, &places[i]))
            return 2;
    for (int run = 0; run < atoi(words[4]); run++) {
        double begun = now();
        for (long end = number + times; number < end;) {
            number++;
            for (int i = members - 1; i > 0; i--)
                ask(&places[i], &jobs[i], number);
            work(&jobs[0]);
            for (int i = 1; i < members; i++)
                finish(&places[i], &jobs[i], number);
        }
        printf("%ld %.0f\n", members * times, now() - begun);
    }
    over = 1;
    for (int i = 1; i < members; i++)
        pthread_join(ids[i], NULL);
    return 0;
}
