// A call in the words of an OpenMP program, and what it may be answered.
#include "call.h"

#include "place.h"
#include "tasks_made.h"

#include <stdarg.h>
#include <stdio.h>
#include <string.h>

void text_add(struct text *text, const char *format, ...)
{
    va_list arguments;
    va_start(arguments, format);
    size_t room = TEXT_SIZE - text->length;
    int wanted = vsnprintf(text->bytes + text->length, room, format, arguments);
    va_end(arguments);
    if (wanted > 0)
        text->length += (size_t)wanted < room ? (size_t)wanted : room - 1;
}

static const char *const schedule_names[] = {"runtime", "static", "dynamic", "guided", "static"};

// The chunk that the engine is sent: one above the number of iterations means the same as that number, which is 1 at
// least.
long loop_chunk(const struct loop *loop)
{
    if (loop->chunk <= 1 || loop->increment == 0)
        return loop->chunk;
    __int128 step = loop->increment, way = (__int128)loop->end - loop->start;
    if (step < 0) {
        step = -step;
        way = -way;
    }
    __int128 iterations = way > 0 ? (way + step - 1) / step : 1;
    return loop->chunk < iterations ? loop->chunk : (long)iterations;
}

static void loop_words(const struct loop *loop, struct text *text)
{
    text_add(text, "#pragma omp for schedule(%s", schedule_names[loop->schedule]);
    if (loop->chunk != 0)
        text_add(text, ", %ld", loop->chunk);
    text_add(text, ")%s, ", loop->ordered ? " ordered" : "");
    if (loop->numbering == NUMBERS_TURNED)
        text_add(text, "%lu to %lu by %ld", (unsigned long)loop->start ^ 1UL << 63,
                 (unsigned long)loop->end ^ 1UL << 63, loop->increment);
    else if (loop->numbering == NUMBERS_COUNTED)
        text_add(text, "%ld iterations", loop->end);
    else
        text_add(text, "%ld to %ld by %ld", loop->start, loop->end, loop->increment);
}

static void critical_words(const struct call *call, struct text *text)
{
    text_add(text, "%s#pragma omp critical", call->kind == CALL_CRITICAL ? "" : "the end of ");
    if (*call->name != 0)
        text_add(text, " (%s)", call->name);
}

static const char *cancel_word(enum cancel_kind kind)
{
    switch (kind) {
    case CANCEL_PARALLEL: break;
    case CANCEL_LOOP: return "for";
    case CANCEL_SECTIONS: return "sections";
    case CANCEL_TASKGROUP: return "taskgroup";
    }
    return "parallel";
}

static void cancel_words(const struct call *call, struct text *text)
{
    const char *word = cancel_word(call->cancel.kind);
    text_add(text, "#pragma omp %s %s", call->kind == CALL_POINT ? "cancellation point" : "cancel", word);
}

static void lock_words(const char *routine, const struct call *call, struct text *text)
{
    text_add(text, "%s", routine);
    if (call->lock.number == NO_LOCK) {
        text_add(text, " of a lock that was never initialized");
    } else {
        text_add(text, " of lock %u", call->lock.number);
        place_add_after(", initialized at ", call->lock.made, text);
    }
}

static void share_words(const char *before, const struct call *share, struct text *text)
{
    text_add(text, "%s", before);
    call_words(share, share, text);
}

// Adds a call in OpenMP's words. `share` is the start of the work-share that the member is, or was last, in.
void call_words(const struct call *call, const struct call *share, struct text *text)
{
    switch (call->kind) {
    case CALL_NONE: text_add(text, "no construct"); break;
    case CALL_LOOP: loop_words(&call->loop, text); break;
    case CALL_LOOP_NEXT: share_words("the next chunk of ", share, text); break;
    case CALL_SECTIONS: text_add(text, "#pragma omp sections (%u sections)", call->sections); break;
    case CALL_SECTIONS_NEXT: share_words("the next section of ", share, text); break;
    case CALL_SINGLE: text_add(text, "#pragma omp single"); break;
    case CALL_SINGLE_COPY: text_add(text, "#pragma omp single copyprivate"); break;
    case CALL_LOOP_END:
    case CALL_SECTIONS_END:
    case CALL_SINGLE_COPY_END: share_words("the end of ", share, text); break;
    case CALL_ORDERED: text_add(text, "#pragma omp ordered"); break;
    case CALL_ORDERED_END: text_add(text, "the end of #pragma omp ordered"); break;
    case CALL_BARRIER: text_add(text, "#pragma omp barrier (or the barrier that ends a construct)"); break;
    case CALL_BARRIER_OF_SHARE: share_words("the barrier at the end of ", share, text); break;
    case CALL_REGION_END: text_add(text, "the end of the parallel region"); break;
    case CALL_TASK: text_add(text, "#pragma omp task%s", call->items != NULL ? " depend" : ""); break;
    case CALL_TASK_END: text_add(text, "the end of #pragma omp task"); break;
    case CALL_TASKWAIT: text_add(text, "#pragma omp taskwait%s", call->items != NULL ? " depend" : ""); break;
    case CALL_GROUP: text_add(text, "#pragma omp taskgroup"); break;
    case CALL_GROUP_END: text_add(text, "the end of #pragma omp taskgroup"); break;
    case CALL_CANCEL:
    case CALL_POINT: cancel_words(call, text); break;
    case CALL_CRITICAL:
    case CALL_CRITICAL_END: critical_words(call, text); break;
    case CALL_LOCK_INIT: text_add(text, "omp_init_lock"); break;
    case CALL_LOCK_DESTROY: lock_words("omp_destroy_lock", call, text); break;
    case CALL_SET: lock_words("omp_set_lock", call, text); break;
    case CALL_TEST: lock_words("omp_test_lock", call, text); break;
    case CALL_UNSET: lock_words("omp_unset_lock", call, text); break;
    case CALL_NEST_INIT: text_add(text, "omp_init_nest_lock"); break;
    case CALL_NEST_DESTROY: lock_words("omp_destroy_nest_lock", call, text); break;
    case CALL_SET_NEST: lock_words("omp_set_nest_lock", call, text); break;
    case CALL_TEST_NEST: lock_words("omp_test_nest_lock", call, text); break;
    case CALL_UNSET_NEST: lock_words("omp_unset_nest_lock", call, text); break;
    }
}

// A task's creation is answered `created`; that of an undeferred one `run`: of this task, or of another while
// it waits for those that it depends on; both `dropped`.
static bool may_be_answered_creation(const struct task *task, const struct reply *answer)
{
    if (answer->kind == REPLY_DROPPED)
        return true;
    if (!task->is_undeferred)
        return answer->kind == REPLY_CREATED;
    return answer->kind == REPLY_RUN && answer->is_own == (answer->count == task->number);
}

// Whether a reply is one that the call may have, beside `wait` and a refusal.
bool call_may_be_answered(const struct call *call, const struct reply *answer)
{
    enum reply_kind reply = answer->kind;
    if (answer->is_own && call->kind != CALL_TASK)
        return false;
    if (reply == REPLY_CANCELLED) // others are not made when they could be answered so: see leave.c
        return call->can_leave;
    if ((call_traits(call->kind)->answers & 1U << reply) == 0)
        return false;
    if (call->kind == CALL_TASK)
        return may_be_answered_creation(call->task, answer);
    if (reply == REPLY_LOCK)
        return answer->count < NO_LOCK;
    return call->kind != CALL_SET_NEST || answer->count > 0;
}

// Whether a call makes, destroys or uses a lock.
bool call_is_on_lock(const struct call *call)
{
    enum call_class class = call_traits(call->kind)->class;
    return class == CLASS_LOCK_MADE || class == CLASS_LOCK_DESTROYED || class == CLASS_LOCK_USED;
}

// Whether a call begins a work-share.
bool call_is_start(const struct call *call) { return call_traits(call->kind)->class == CLASS_START; }

// Whether a reply gives a critical name or a lock to the member.
bool call_takes_hold(const struct call *call, const struct reply *reply)
{
    bool is_taken = reply->kind == REPLY_OK || reply->count == 1;
    return call_traits(call->kind)->hold == HOLD_TAKEN && is_taken;
}

// Whether a reply frees one.
bool call_frees_hold(const struct call *call, const struct reply *reply)
{
    return call_traits(call->kind)->hold == HOLD_FREED && reply->count == 0;
}

// Whether a call is on a lock that has a name: not one that makes it.
static bool has_lock_name(const struct call *call)
{
    return call_is_on_lock(call) && call_traits(call->kind)->class != CLASS_LOCK_MADE;
}

// Whether two calls are on one critical name, or on one lock.
bool call_is_of_one_hold(const struct call *one, const struct call *other)
{
    bool is_critical = call_traits(one->kind)->class == CLASS_CRITICAL;
    bool is_other_critical = call_traits(other->kind)->class == CLASS_CRITICAL;
    if (is_critical || is_other_critical)
        return is_critical && is_other_critical &&
               (one->name == other->name || strcmp(one->name, other->name) == 0);
    return has_lock_name(one) && has_lock_name(other) && one->lock.number == other->lock.number;
}
