// Sleeping on a word until another thread changes it (Linux's futex).
#ifndef DILLBEAM_FUTEX_H
#define DILLBEAM_FUTEX_H

#include <errno.h>
#include <linux/futex.h>
#include <stdatomic.h>
#include <stdbool.h>
#include <stddef.h>
#include <sys/syscall.h>
#include <time.h>
#include <unistd.h>

// Sleeps while the word has this value; up to a time by CLOCK_REALTIME, if there is one. It may come back early.
// Answers whether the time has not come. The program's errno stays.
static inline bool futex_wait(atomic_int *word, int value, const struct timespec *until)
{
    int operation = FUTEX_WAIT_BITSET_PRIVATE | FUTEX_CLOCK_REALTIME, kept = errno;
    errno = 0;
    syscall(SYS_futex, word, operation, value, until, NULL, FUTEX_BITSET_MATCH_ANY);
    bool is_late = errno == ETIMEDOUT;
    errno = kept;
    return !is_late;
}

// Wakes one thread that sleeps on the word.
static inline void futex_wake(atomic_int *word)
{
    syscall(SYS_futex, word, FUTEX_WAKE_PRIVATE, 1, NULL, NULL, 0);
}

#endif
