// The library's own locks. They are held for a microsecond or two, so a thread that finds one held stays awake
// for a while, and then sleeps. A debug build (adapter/build --debug) keeps a list of those that a thread holds, and
// ends the program if the order of mutex.h is broken, or if a lock is not held that has to be. No other build looks.
#define _GNU_SOURCE
#include "mutex.h"

#include "futex.h"
#include "message.h"
#include "semaphores.h"
#include "whole.h"

#ifndef CHECKS_LOCKS
#define CHECKS_LOCKS 0
#endif

// The states of a lock. A thread that gives up a WANTED one wakes one that sleeps.
enum { FREE, HELD, WANTED };

static __thread struct mutex *held; // the lock that this thread took last, of those that it holds

static const char *name_of(const struct mutex *mutex)
{
    switch (mutex->rank) {
    case RANK_TEAM: return "the lock of a team";
    case RANK_TEAMS: return "the lock of the idle teams";
    case RANK_ENGINES: return "the lock of the engines";
    case RANK_NAMES: return "the lock of the critical names";
    case RANK_LOCKS: return "the lock of the program's locks";
    case RANK_ATOMIC: return "the lock of atomic constructs";
    }
    return "a lock of no rank";
}

static void check_order(const struct mutex *mutex)
{
    for (const struct mutex *other = held; other != NULL; other = other->beneath)
        if (other->rank >= mutex->rank)
            end_by_fault("order of locks: %s is taken while %s is held", name_of(mutex), name_of(other));
}

// Where the list of this thread's locks has one; a place with NULL if it has not.
static struct mutex **place_of(const struct mutex *mutex)
{
    struct mutex **place = &held;
    while (*place != NULL && *place != mutex)
        place = &(*place)->beneath;
    return place;
}

static void note_taken(struct mutex *mutex)
{
    mutex->beneath = held;
    held = mutex;
}

void mutex_init(struct mutex *mutex, enum rank rank) { *mutex = (struct mutex)MUTEX(rank); }

// Whether no thread has the lock at this moment.
bool mutex_is_free(const struct mutex *mutex)
{
    return atomic_load_explicit(&mutex->state, memory_order_relaxed) == FREE;
}

// Takes the lock if it is free. It is looked at first: who would change it takes it from its holder's processor.
static bool take_free(struct mutex *mutex)
{
    int free = FREE;
    if (!mutex_is_free(mutex))
        return false;
    return atomic_compare_exchange_strong_explicit(&mutex->state, &free, HELD, memory_order_acquire,
                                                   memory_order_relaxed);
}

// Takes a lock that was held, up to a time if there is one. Answers whether it is taken.
APART static bool take_held(struct mutex *mutex, const struct timespec *until)
{
    for (int left = turns_awake(); left > 0; left--) {
        if (take_free(mutex))
            return true;
        pause_a_turn();
    }
    while (atomic_exchange_explicit(&mutex->state, WANTED, memory_order_acquire) != FREE)
        if (!futex_wait(&mutex->state, WANTED, until))
            return false;
    return true;
}

void mutex_lock(struct mutex *mutex)
{
    if (CHECKS_LOCKS)
        check_order(mutex);
    if (!take_free(mutex))
        take_held(mutex, NULL);
    if (CHECKS_LOCKS)
        note_taken(mutex);
}

// Takes the lock if no thread holds it. Who does not wait needs no order. Answers whether it is taken.
bool mutex_try_lock(struct mutex *mutex)
{
    bool is_taken = take_free(mutex);
    if (CHECKS_LOCKS && is_taken)
        note_taken(mutex);
    return is_taken;
}

// The same up to a time, by CLOCK_REALTIME.
bool mutex_lock_until(struct mutex *mutex, const struct timespec *until)
{
    bool is_taken = take_free(mutex) || take_held(mutex, until);
    if (CHECKS_LOCKS && is_taken)
        note_taken(mutex);
    return is_taken;
}

void mutex_unlock(struct mutex *mutex)
{
    if (CHECKS_LOCKS) {
        mutex_expect_held(mutex);
        *place_of(mutex) = mutex->beneath;
    }
    if (atomic_exchange_explicit(&mutex->state, FREE, memory_order_release) == WANTED)
        futex_wake(&mutex->state);
}

// In a debug build: that the calling thread holds the lock.
void mutex_expect_held(const struct mutex *mutex)
{
    if (CHECKS_LOCKS && *place_of(mutex) == NULL)
        end_by_fault("order of locks: %s is not held", name_of(mutex));
}
