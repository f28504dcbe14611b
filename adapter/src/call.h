// A call of a member and the reply to it: see call.c.
#ifndef DILLBEAM_CALL_H
#define DILLBEAM_CALL_H

#include <stdbool.h>
#include <stddef.h>
#include <stdint.h>

#include "items.h"
#include "whole.h"

enum { TEXT_SIZE = 32768 };

#define CALL(NAME, ...) CALL_##NAME,
enum call_kind {
#include "kinds.def"
};
#undef CALL

// What calls have in common that are treated alike.
enum call_class {
    CLASS_NONE,
    CLASS_START,  // of a work-share
    CLASS_INSIDE, // of a work-share: a next chunk or section, an ordered part
    CLASS_END,    // of a work-share, without a barrier
    CLASS_BARRIER,
    CLASS_REGION_END,
    CLASS_TASK,
    CLASS_TASK_END,
    CLASS_TASKWAIT,
    CLASS_GROUP,
    CLASS_GROUP_END,
    CLASS_CANCEL,
    CLASS_CRITICAL,
    CLASS_LOCK_MADE,
    CLASS_LOCK_DESTROYED,
    CLASS_LOCK_USED
};

// What a call says beside its kind and its member, in a line and in words alike.
enum call_arguments {
    ARGUMENTS_NONE,
    ARGUMENTS_LOOP,
    ARGUMENTS_SECTIONS,
    ARGUMENTS_ITERATION, // of an ordered part
    ARGUMENTS_WORD,      // that a single hands on
    ARGUMENTS_TASK,      // with its items
    ARGUMENTS_ITEMS,
    ARGUMENTS_CANCEL, // what it names, and its clause
    ARGUMENTS_POINT,  // what it names
    ARGUMENTS_NAME,   // of a critical region
    ARGUMENTS_LOCK
};

// What lets a member that waits go on.
enum wait {
    WAIT_NOT = 0,
    WAIT_ARRIVAL = 1,
    WAIT_LEAVE = 2,
    WAIT_TURN = 4,
    WAIT_HOLD = 8,
    WAIT_CHILDREN = 16,
    WAIT_GROUP = 32,
    WAIT_ANY = 63,
    WAIT_IN_CANCELLED = WAIT_ARRIVAL | WAIT_LEAVE | WAIT_TURN // what a cancelled region cuts short
};

// What a call does to a critical name or a lock: takes it if it is answered `ok`, or a number of 1, which is the
// first time that it is set; frees it if it is answered `ok`, or a number of 0.
enum hold_change { HOLD_SAME, HOLD_TAKEN, HOLD_FREED };

// What is known of a kind of call: see kinds.def.
struct traits {
    const char *word; // of its line
    unsigned number;  // that its words begin with
    enum call_arguments arguments;
    enum call_class class;
    unsigned answers; // the kinds of replies that it may have, besides `wait` and a refusal: a bit for each
    enum wait wait;   // what its member waits for, WAIT_NOT if it never does
    enum wait lets;   // whom it lets pass once it is answered otherwise than `wait`
    enum hold_change hold; // what it does to the name or lock that it is on
};

// The numbers are those of libgomp, which GOMP_loop_start is given.
enum schedule { SCHEDULE_RUNTIME, SCHEDULE_STATIC, SCHEDULE_DYNAMIC, SCHEDULE_GUIDED, SCHEDULE_AUTO };

// How the engine's signed numbers stand for a loop's own: as they are; unsigned ones with the top bit turned,
// which keeps their order; or as the numbers of its iterations, counted from 0.
enum numbering { NUMBERS_SIGNED, NUMBERS_TURNED, NUMBERS_COUNTED };

struct loop {
    enum schedule schedule : 8; // so that a call is short enough for a post of one line (team.h)
    enum numbering numbering : 8;
    bool ordered;
    long start, end, increment, chunk; // the chunk as the program gave it, 0 for none
};

// A lock, simple or nestable, as a call names it.
struct lock_name {
    unsigned number; // the engine's, NO_LOCK for a lock that was never initialized
    void *made;      // where the program initialized it
};
#define NO_LOCK UINT32_MAX // the engine gives this number to no lock

// What a cancel construct or a cancellation point names. The numbers are those of libgomp, which GOMP_cancel is
// given.
enum cancel_kind { CANCEL_PARALLEL = 1, CANCEL_LOOP = 2, CANCEL_SECTIONS = 4, CANCEL_TASKGROUP = 8 };

struct cancel {
    enum cancel_kind kind;
    bool clause; // of a cancel construct: its `if` clause
};

struct task;

struct call {
    enum call_kind kind;
    bool can_leave; // of a barrier: the compiled code can go from here to the end of a cancelled region
    void *address;  // where in the program it returns to
    union {
        struct loop loop;
        unsigned sections;
        long iteration;     // of an ordered part
        unsigned long word; // what a single hands to the other members
        const char *name;   // of a critical region, empty if it has none
        struct lock_name lock;
        struct cancel cancel;
        struct {                 // they stand up to the reply
            struct task *task;   // that is created or ended
            struct items *items; // of the depend clause of a task or a taskwait, NULL for none
        };
    };
};

// The numbers up to that of a refusal are those of gomp_words.
enum reply_kind {
    REPLY_CHUNK = 10,
    REPLY_NONE,
    REPLY_SECTION,
    REPLY_EXECUTOR,
    REPLY_COPIED,
    REPLY_OK,
    REPLY_PASSED,
    REPLY_CANCELLED,
    REPLY_WAIT,
    REPLY_CREATED,
    REPLY_DROPPED,
    REPLY_CANCELLING,
    REPLY_RUN,
    REPLY_TASK_DONE,
    REPLY_LOCK,
    REPLY_GOT,
    REPLY_COUNT,
    REPLY_STOPPED, // which no call here is answered
    REPLY_REFUSED,
    REPLY_SKIPPED, // by the adapter, in a cancelled region: the engine is not asked
    REPLY_UNKNOWN
};

// Where the members of a broken team differ, as a refusal says it.
enum clash { CLASH_SHARE, CLASH_BARRIER, CLASH_STOPPED };

// What a reply's kind does not say is not set.
struct reply {
    enum reply_kind kind;
    bool is_own;     // the task that is to be executed is the undeferred one of this call
    bool is_waiting; // of a task that has ended: the wait at which it began is open again
    union {
        long first;       // of a chunk: the value of its first iteration
        enum clash clash; // of a broken team
    };
    // Of a chunk: iterations; the number of a section, a lock, a task or a refusal; yes or no; a copied word; how
    // often a nestable lock is set.
    unsigned long count;
    unsigned long code, argument; // of a task that is to be executed; of a broken team: the member, and where
};

// A text that grows up to its room; what is beyond is dropped.
struct text {
    size_t length;
    char bytes[TEXT_SIZE];
};
void text_add(struct text *text, const char *format, ...) __attribute__((format(printf, 2, 3)));

// A set of kinds of replies has a bit for each: this one's.
#define ANSWER(KIND) (1U << REPLY_##KIND)
static inline bool reply_is_of(const struct reply *reply, unsigned kinds_of_replies)
{
    return (kinds_of_replies >> reply->kind & 1) != 0;
}

extern const struct traits kinds[];

// What is known of a call by its kind.
static inline const struct traits *call_traits(enum call_kind kind) { return &kinds[kind]; }

// Keeps of a call what its words say: most kinds say no more than themselves.
static inline void call_keep_words(struct call *kept, const struct traits *traits, const struct call *call)
{
    if (traits->arguments != ARGUMENTS_NONE) {
        *kept = *call;
    } else {
        kept->kind = call->kind;
        kept->address = call->address;
    }
}

void call_words(const struct call *call, const struct call *share, struct text *text);
long loop_chunk(const struct loop *loop);
bool call_may_be_answered(const struct call *call, const struct reply *reply);
bool call_is_on_lock(const struct call *call);
bool call_is_start(const struct call *call);
bool call_takes_hold(const struct call *call, const struct reply *reply);
bool call_frees_hold(const struct call *call, const struct reply *reply);
bool call_is_of_one_hold(const struct call *one, const struct call *other);

#endif
