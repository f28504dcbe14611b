// Why the engine refuses a call, and what a message says of it: see refusal.c.
#ifndef DILLBEAM_REFUSAL_H
#define DILLBEAM_REFUSAL_H

#include "call.h"

// The engine's refusals, by their numbers: adapter/tests/run checks that they are those of
// crates/gomp_types/src/refusal.rt.
enum refusal {
    REFUSAL_BAD_MEMBER = 1,
    REFUSAL_ENDED = 2,
    REFUSAL_BROKEN = 3,
    REFUSAL_WAITING = 4,
    REFUSAL_LEAVING = 5,
    REFUSAL_INSIDE_TASK = 6,
    REFUSAL_NOT_IN_TASK = 7,
    REFUSAL_INSIDE_SHARE = 8,
    REFUSAL_OUTSIDE_SHARE = 9,
    REFUSAL_IN_ORDERED = 10,
    REFUSAL_HOLDS_CRITICAL = 11,
    REFUSAL_ZERO_STEP = 12,
    REFUSAL_BAD_CHUNK = 13,
    REFUSAL_LOOP_TOO_LONG = 14,
    REFUSAL_BAD_SECTIONS = 15,
    REFUSAL_ORDERED_LOOP = 16,
    REFUSAL_END_DIFFERS = 17,
    REFUSAL_NOT_DRAINED = 18,
    REFUSAL_DRAINED = 19,
    REFUSAL_NOT_ORDERED = 20,
    REFUSAL_ORDERED_BACKWARDS = 21,
    REFUSAL_NOT_INSIDE = 22,
    REFUSAL_NOT_CANCELLABLE = 23,
    REFUSAL_NO_GROUP = 24,
    REFUSAL_GROUP_OPEN = 25,
    REFUSAL_TOO_DEEP = 26,
    REFUSAL_TOO_MANY_TASKS = 27,
    REFUSAL_TOO_MANY_DEPENDS = 28,
    REFUSAL_NAME_TOO_LONG = 29,
    REFUSAL_ALREADY_HELD = 30,
    REFUSAL_NOT_HOLDER = 31,
    REFUSAL_NO_LOCK = 32,
    REFUSAL_COUNT_TOO_LARGE = 33,
    REFUSAL_TOO_MANY_SHARES = 34,
    REFUSAL_MISMATCH = 35,
    REFUSAL_TRACE_FULL = 36,
    REFUSAL_NO_MEMORY = 37,
    REFUSAL_BAD_TEAM = 38,
    REFUSAL_TOO_MANY_LEVELS = 39,
    REFUSAL_BAD_ENV = 41
};

// Where a refusal says more than elsewhere.
enum circumstance {
    IN_GENERAL,
    AT_CANCELLATION,    // a cancel construct or a cancellation point is refused
    AMONG_TASKS,        // the region has explicit tasks
    AT_REENTRY,         // of a critical region, in one of the same name
    AT_REENTRY_BY_TASK, // the same, and that one was entered in another task, which waits in it
    AT_DESTRUCTION      // of a lock
};

// What a message says of a refusal. The limits are no faults of the program.
struct meaning {
    bool is_limit;
    const char *text;
};

// Room for the longest name, that of a broken team.
enum { REFUSED_SIZE = 80 };

struct meaning refusal_meaning(unsigned long number, enum circumstance circumstance);
void refusal_name(const struct reply *reply, char name[REFUSED_SIZE]);

#endif
