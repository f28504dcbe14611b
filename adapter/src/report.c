// The messages about a team: a refused call, a deadlock, a team in which nothing has moved. Each names the
// members by the adapter's own notes: what each did last, in OpenMP's words, and where in the binary. The notes are
// read with the team's lock held, save at a timeout of a team whose engine does not answer: who holds it is stuck.
#define _GNU_SOURCE
#include "report.h"

#include "message.h"
#include "place.h"
#include "refusal.h"

#include <errno.h>
#include <stdio.h>
#include <stdlib.h>
#include <string.h>
#include <time.h>

// The hold of the name or lock of a call, by the notes of the members, and whose it is; NULL if none is noted.
static const struct hold *find_hold(const struct team *team, const struct call *call, int *holder)
{
    for (int number = 0; number < team->size; number++) {
        const struct member *member = &team->members[number];
        for (int i = 0; i < member->holds && i < HOLDS_NOTED; i++)
            if (call_is_of_one_hold(&member->held[i].call, call)) {
                *holder = number;
                return &member->held[i];
            }
    }
    return NULL;
}

// Whether the thread has entered the critical region of this name in another task than the one that it executes:
// that one waits in it.
static bool is_in_by_other_task(const struct team *team, int number, const struct call *call)
{
    int holder;
    const struct task *task = team->members[number].task;
    const struct hold *hold = find_hold(team, call, &holder);
    return hold != NULL && hold->task != (task != NULL ? task->number : 0);
}

static enum circumstance circumstance_of_held(const struct team *team, int number, const struct call *call)
{
    enum call_class class = call_traits(call->kind)->class;
    if (class == CLASS_CRITICAL)
        return is_in_by_other_task(team, number, call) ? AT_REENTRY_BY_TASK : AT_REENTRY;
    return class == CLASS_LOCK_DESTROYED ? AT_DESTRUCTION : IN_GENERAL;
}

static enum circumstance circumstance_of(const struct team *team, int number, const struct call *call,
                                         unsigned long refused)
{
    if (refused == REFUSAL_ALREADY_HELD)
        return circumstance_of_held(team, number, call);
    if (refused == REFUSAL_NO_GROUP && call_traits(call->kind)->class == CLASS_CANCEL)
        return AT_CANCELLATION;
    if (refused == REFUSAL_NOT_HOLDER && team->tasks_made.count > 0)
        return AMONG_TASKS;
    return IN_GENERAL;
}

static void add_count(unsigned long count, const char *noun, struct text *text)
{
    text_add(text, "%lu %s%s", count, noun, count == 1 ? "" : "s");
}

// How far a member has come in its region.
static void add_way(const struct member *member, struct text *text)
{
    text_add(text, " after ");
    add_count(member->shares, "work-share", text);
    text_add(text, " and ");
    add_count(member->barriers, "barrier", text);
}

// The critical names and locks that a member holds.
static void add_holds(const struct member *member, struct text *text)
{
    int noted = member->holds < HOLDS_NOTED ? member->holds : HOLDS_NOTED;
    for (int i = 0; i < noted; i++) {
        const struct call *call = &member->held[i].call;
        if (call->kind == CALL_NONE)
            continue;
        if (call->kind == CALL_CRITICAL) {
            text_add(text, ", inside of ");
            call_words(call, call, text);
        } else if (member->held[i].is_left) {
            text_add(text, ", executed a task that ended with lock %u set", call->lock.number);
        } else {
            text_add(text, ", holding lock %u", call->lock.number);
        }
        place_add(call->address, text);
    }
}

// The explicit task that a member executes.
static void add_task(const struct member *member, struct text *text)
{
    if (member->task == NULL)
        return;
    text_add(text, ", executing #pragma omp task");
    place_add(member->task->address, text);
}

// Whether a member waits for this task to end, as far as the notes say.
static bool is_waited_for(const struct team *team, int number, const struct task *task)
{
    const struct member *member = &team->members[number];
    if (member->wait == WAIT_GROUP)
        return member->task == NULL && task->root == number && task->root_groups >= member->groups;
    return member->wait == WAIT_CHILDREN && member->last.kind == CALL_TASKWAIT && member->last.items == NULL &&
           team_parent_of_locked(team, task) == number;
}

// Who has the name or lock that a member waits for, if that is noted.
static void add_holder(const struct team *team, const struct member *member, struct text *text)
{
    int holder;
    const struct hold *hold = member->wait == WAIT_HOLD ? find_hold(team, &member->last, &holder) : NULL;
    if (hold == NULL)
        return;
    bool is_own = &team->members[holder] == member;
    bool is_waited = !is_own && member->task != NULL && is_waited_for(team, holder, member->task);
    if (hold->is_left) {
        text_add(text, "; lock %u was left set by a task that has ended", hold->call.lock.number);
        place_add(hold->call.address, text);
    } else if (hold->call.kind == CALL_CRITICAL) {
        text_add(text, "; member %d is in ", holder);
        call_words(&hold->call, &hold->call, text);
        text_add(text, is_waited ? ", and waits there for this task" : "");
    } else if (is_own) {
        text_add(text, "; lock %u is held by the thread itself, which executes this task while it waits",
                 hold->call.lock.number);
    } else {
        text_add(text, "; lock %u is held by member %d%s", hold->call.lock.number, holder,
                 is_waited ? ", which waits for this task" : "");
    }
}

// What a member did last. The members of a group have done the same.
static void add_deed(const struct team *team, const struct member *member, bool is_group, struct text *text)
{
    if (member->last.kind == CALL_NONE) {
        text_add(text, "no construct met yet");
        return;
    }
    text_add(text, member->wait == WAIT_NOT ? "last met " : is_group ? "wait at " : "waits at ");
    call_words(&member->last, &member->share, text);
    place_add(member->last.address, text);
    add_way(member, text);
    add_task(member, text);
    add_holds(member, text);
    add_holder(team, member, text);
}

static bool is_same_deed(const struct team *team, const struct member *one, const struct member *other)
{
    static struct text deeds[2];
    deeds[0].length = deeds[1].length = 0;
    add_deed(team, one, false, &deeds[0]);
    add_deed(team, other, false, &deeds[1]);
    return strcmp(deeds[0].bytes, deeds[1].bytes) == 0;
}

static void add_group(const struct team *team, const bool *group, int first, int count, struct text *text)
{
    text_add(text, count > 1 ? "  members" : "  member");
    for (int number = first; number < team->size; number++) {
        pid_t thread = team->members[number].thread;
        if (group[number])
            text_add(text, "%s %d", number > first ? "," : "", number);
        if (group[number] && thread != 0)
            text_add(text, " (thread %d)", (int)thread);
    }
    text_add(text, ": ");
    add_deed(team, &team->members[first], count > 1, text);
    text_add(text, "\n");
}

// A line for each group of members that did the same last. `left_out` is a member that is told of apart, or
// -1.
static void add_members(const struct team *team, int left_out, struct text *text)
{
    bool told[MOST_MEMBERS] = {false};
    for (int first = 0; first < team->size; first++) {
        bool group[MOST_MEMBERS] = {false};
        int count = 0;
        if (told[first] || first == left_out)
            continue;
        for (int number = first; number < team->size; number++) {
            bool is_in = number != left_out && !told[number] &&
                         is_same_deed(team, &team->members[first], &team->members[number]);
            group[number] = is_in;
            told[number] = told[number] || is_in;
            count += is_in;
        }
        add_group(team, group, first, count, text);
    }
}

// The place of the mismatch: the next step of any member is answered by it. This question is in no record.
static void add_place_of_mismatch(struct team *team, int number, struct text *text)
{
    const struct call barrier = {.kind = CALL_BARRIER};
    struct reply reply;
    engine_ask(team->engine, number, call_traits(barrier.kind), &barrier, &reply);
    if (reply.kind == REPLY_REFUSED && reply.count == REFUSAL_BROKEN && reply.clash != CLASH_STOPPED)
        text_add(text, "  they differ at %s %lu of the region\n",
                 reply.clash == CLASH_SHARE ? "work-share" : "barrier", reply.argument + 1);
}

static void add_refused_call(const struct team *team, int number, const struct call *call, struct text *text)
{
    const struct member *member = &team->members[number];
    text_add(text, "  member %d of %d (thread %d): met ", number, team->size, (int)member->thread);
    call_words(call, &member->share, text);
    place_add(call->address, text);
    add_way(member, text);
    if (member->inside) {
        text_add(text, ", inside of ");
        call_words(&member->share, &member->share, text);
        place_add(member->share.address, text);
    }
    add_task(member, text);
    add_holds(member, text);
    text_add(text, "\n");
}

// Ends the program with what the refusal of a member's call means.
_Noreturn void report_refusal_locked(struct team *team, int number, const struct call *call,
                                     const struct reply *reply)
{
    static struct text text;
    char name[REFUSED_SIZE];
    unsigned long refused = reply->count;
    mutex_expect_held(&team->lock);
    refusal_name(reply, name);
    if (refused == REFUSAL_LEAVING)
        end_by_fault("the adapter asked for what a member may not do that leaves: '%s'", name);
    struct meaning meaning = refusal_meaning(refused, circumstance_of(team, number, call, refused));
    claim_end();
    text_add(&text, "dillbeam: %s: %s%s\n", name,
             meaning.is_limit ? "a limit of Dillbeam, not a fault of the program: " : "", meaning.text);
    add_refused_call(team, number, call, &text);
    if (refused == REFUSAL_MISMATCH)
        add_place_of_mismatch(team, number, &text);
    add_members(team, number, &text);
    text_add(&text, "  see E%lu in docs/REFUSALS.md; the line of a place: ", refused);
    place_add_command(call->address, &text);
    end_with(STATUS_REFUSED, &text);
}

// Ends the program: all members of a team wait.
_Noreturn void report_deadlock_locked(struct team *team)
{
    static struct text text;
    mutex_expect_held(&team->lock);
    claim_end();
    text_add(&text, "dillbeam: deadlock: all %d members of a team wait%s, and none can go on\n", team->size,
             team->is_cancelled ? ", in a region that is cancelled" : "");
    add_members(team, -1, &text);
    end_with(STATUS_STUCK, &text);
}

_Noreturn void report_timeout(double seconds)
{
    static struct text text;
    claim_end();
    text_add(&text, "dillbeam: nothing has moved for %g seconds (--timeout)\n", seconds);
    for (struct team *team = team_after(NULL); team != NULL; team = team_after(team)) {
        struct timespec until;
        clock_gettime(CLOCK_REALTIME, &until);
        until.tv_sec++;
        bool locked = mutex_lock_until(&team->lock, &until);
        if (!team->in_use)
            continue;
        text_add(&text, "  team %lu, of %d member%s%s:\n", team->number, team->size,
                 team->size == 1 ? "" : "s", locked ? "" : ", whose engine does not answer");
        add_members(team, -1, &text);
    }
    end_with(STATUS_STUCK, &text);
}
