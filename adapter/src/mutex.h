// The library's own locks, and the order in which a thread takes them: see mutex.c.
#ifndef DILLBEAM_MUTEX_H
#define DILLBEAM_MUTEX_H

#include <stdatomic.h>
#include <stdbool.h>
#include <time.h>

// The order: a thread that holds one of these locks waits only for one that stands further down. No thread takes a
// second one, save the one that reports a timeout: it tries each team's for a second.
// A function whose name ends in `_locked` is called with the lock held of the team or of the list that it is about.
// The names of what is a part of these, and has no lock itself (tasks_made.h, locks_made.h), do not say so.
enum rank {
    RANK_TEAM,    // of one team, with its engine, its record and its members (team.h)
    RANK_TEAMS,   // of the list of teams that are idle (team.c)
    RANK_ENGINES, // of the list of engines (engine.c)
    RANK_NAMES,   // of the list of critical names (critical.c)
    RANK_LOCKS,   // of the list of the program's locks (lock.c)
    RANK_ATOMIC   // of the program's atomic constructs (atomic.c)
};

struct mutex {
    atomic_int state; // of mutex.c
    enum rank rank;
    struct mutex *beneath; // the one that its thread took before and still holds; a debug build alone keeps it
};

#define MUTEX(RANK) \
    { \
        .rank = (RANK) \
    }

void mutex_init(struct mutex *mutex, enum rank rank);
void mutex_lock(struct mutex *mutex);
bool mutex_is_free(const struct mutex *mutex);
bool mutex_try_lock(struct mutex *mutex);
bool mutex_lock_until(struct mutex *mutex, const struct timespec *until);
void mutex_unlock(struct mutex *mutex);
void mutex_expect_held(const struct mutex *mutex);

#endif
