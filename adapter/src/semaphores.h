// What one thread waits at until another lets it go on: see semaphores.c.
#ifndef DILLBEAM_SEMAPHORES_H
#define DILLBEAM_SEMAPHORES_H

#include <stdatomic.h>
#include <stdbool.h>

// Zeros are a semaphore that was never posted. It is posted again once its waiter has come and gone on.
struct semaphore {
    atomic_int state; // of semaphores.c
};

void semaphore_post(struct semaphore *semaphore);
void semaphore_wait(struct semaphore *semaphore);

// Notes that so many more threads are at work, or fewer, on so many processors.
void threads_add(int count, int processors);

// In a child that the program forked: one thread is at work.
void threads_forget(void);

// How many turns a thread that waits stays awake, and one of them. A first turn is looks alone, which see a change at once;
// a later one leaves the processor to others that share it.
enum { TURNS_OF_LOOKS = 20, LOOKS = 32 };
int turns_awake(void);
static inline void pause_a_turn(void) { __builtin_ia32_pause(); }

// Looks at a word for a turn, by its number from 0. Answers whether it is another than 0.
static inline bool is_set_in_turn(const atomic_int *word, int turn)
{
    int looks = turn < TURNS_OF_LOOKS ? LOOKS : 1;
    if (looks == 1)
        pause_a_turn();
    while (atomic_load_explicit(word, memory_order_acquire) == 0)
        if (--looks == 0)
            return false;
    return true;
}

#endif
