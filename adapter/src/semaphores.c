// A semaphore at which one thread waits, always the same or one after another. It stays awake for a while, since
// what it waits for is most often there within a microsecond, and a thread that sleeps takes ten to wake. Then it
// sleeps. Where more threads are at work than there are processors it sleeps at once: another may need its own.
#define _GNU_SOURCE
#include "semaphores.h"

#include "futex.h"
#include "whole.h"

// The states of a semaphore. Who posts one whose waiter is ASLEEP wakes it.
enum { ASLEEP = -1, NOT_POSTED, POSTED };

enum { TURNS = 20000 }; // is measured: adapter/bench/README.md has what other numbers cost

static atomic_int threads_at_work = 1;

// The turns that a thread which waits stays awake. All look at them, so they stand apart, and are seldom written.
static _Alignas(64) atomic_int turns = TURNS;

int turns_awake(void) { return atomic_load_explicit(&turns, memory_order_relaxed); }

void threads_add(int count, int processors)
{
    int now = atomic_fetch_add(&threads_at_work, count) + count, wanted = now <= processors ? TURNS : 0;
    if (turns_awake() != wanted)
        atomic_store_explicit(&turns, wanted, memory_order_relaxed);
}

void threads_forget(void)
{
    atomic_store(&threads_at_work, 1);
    atomic_store(&turns, TURNS);
}

void semaphore_post(struct semaphore *semaphore)
{
    if (atomic_exchange(&semaphore->state, POSTED) == ASLEEP)
        futex_wake(&semaphore->state);
}

APART static void sleep_until_posted(struct semaphore *semaphore)
{
    int state = NOT_POSTED;
    if (!atomic_compare_exchange_strong(&semaphore->state, &state, ASLEEP))
        return;
    while (atomic_load(&semaphore->state) == ASLEEP)
        futex_wait(&semaphore->state, ASLEEP, NULL);
}

// Its waiter alone changes a state that is POSTED.
void semaphore_wait(struct semaphore *semaphore)
{
    int turn = 0, most = turns_awake();
    while (turn < most && !is_set_in_turn(&semaphore->state, turn))
        turn++;
    if (turn == most)
        sleep_until_posted(semaphore);
    atomic_store_explicit(&semaphore->state, NOT_POSTED, memory_order_relaxed);
}
