// A team: its engine, its lock, and its members that wait.
//
// Each call of a member is asked of the engine under the team's lock, by the member's own thread, or by the one that
// has the lock (post.c). A member whose call is answered `wait` does not ask again by itself: whoever makes a call that
// can let it pass asks for it, and tells it the reply. So a member goes on once, with its reply, and by nothing else.
//
// No wake-up is lost:
// - `wait` is noted under the lock under which the call was made, so no other call comes between the two.
// - A call that lets a member pass is one of those that `lets_pass` has, by docs/RULES.md: a barrier is passed
//   once all have arrived, and the last to arrive is answered `passed` itself; a start waits for eight open
//   shares, until a member leaves one, and a single's words are put by its executor's end, which is such a
//   leaving too; an ordered part or a next chunk waits for its turn, which `next` hands on. Each such call asks
//   again for all that wait for it, and again as long as one of those replies lets others pass, before the
//   lock is given up.
// - A critical name or a lock is freed by its owner's call alone, for one member at most: that call asks
//   again for those that wait for this name or lock, who waits longest first, until one has it.
// - A task is begun by one member, which waits at a barrier, a region's end, a taskwait or a taskgroup's end.
//   The call that creates it asks again for these, one after another, until one begins it. If none may, none
//   may later: what a member has begun stays as it is while it sleeps. Who comes to such a wait is answered
//   `run` by itself.
// - A task's end lets pass the taskwait of the task that created it, and taskgroups' ends. A barrier that
//   waits for tasks is passed by whoever ended the last one: it is at the barrier itself, asks again for
//   itself, and then for the others.
// - A cancellation lets pass who waits for tasks that are discarded by it. In a region that is cancelled each
//   call asks for all whose calls are not too early (leave.c), and each reply that wakes one asks again. A call
//   that is too early is not made yet: its member waits as one that was answered `wait`.
// - A reply stands where its member alone takes it, and stays until it does: one that comes before the member sleeps
//   is not lost. The member sleeps only after it has noted that it does, under the lock and with no reply there. Who
//   writes the reply has the lock too: so it comes before the note, or sees the note, and wakes the member.
// Were that list too short, the team would not hang in silence: when all members wait, each asks once more,
// and only if all are answered `wait` again is a deadlock named. In a cancelled region one of them may go on
// then.
//
// No posted call is lost:
// - A member that has posted a call looks at its reply and at the lock in turn. If nobody has the lock, and its call is
//   not begun, it takes the lock and makes the call itself. So nobody has to see its post: who does spares it the way.
// - Before it goes to sleep it takes the lock, waiting for it as long as it takes, and makes its call if it is not begun.
//   Who sleeps has a call that is made: it has its reply, or waits as above.
// - A call is made once: who begins it notes so first, and looks at the note, under the lock.
// - A post is written before it is counted, and the count is what others look at; it is written again by its member
//   alone, behind the reply. So who makes the call reads it whole, and reads it no more once it has told the reply.
#define _GNU_SOURCE
#include "team.h"

#include "leave.h"
#include "memory.h"
#include "message.h"
#include "post.h"
#include "record.h"
#include "report.h"
#include "watch.h"

#include <stdatomic.h>
#include <stdio.h>
#include <stdlib.h>
#include <string.h>
#include <unistd.h>

static struct mutex teams_lock = MUTEX(RANK_TEAMS);
static struct team *idle_teams;          // under that lock
static _Atomic(struct team *) all_teams; // one is added at the front, none is taken away
static atomic_ulong teams_begun;
static __thread pid_t own_thread; // the calling one's number, once it is asked for

static _Noreturn void end_by_answer(const struct team *team)
{
    static struct text text;
    claim_end();
    text_add(&text, "dillbeam: the engine answered ");
    engine_add_answer(team->engine, &text);
    text_add(&text, ", which is no reply to this call\n");
    end_with(STATUS_FAULT, &text);
}

// Ends the program at a reply that is a refusal, or none to this call.
SELDOM static _Noreturn void end_by_reply_locked(struct team *team, int number, const struct call *call,
                                                 const struct reply *reply)
{
    mutex_expect_held(&team->lock);
    if (reply->kind != REPLY_REFUSED)
        end_by_answer(team);
    report_refusal_locked(team, number, call, reply);
}

static void check_reply_locked(struct team *team, int number, const struct call *call,
                               const struct reply *reply)
{
    mutex_expect_held(&team->lock);
    if (reply_is_of(reply, ANSWER(REFUSED) | ANSWER(UNKNOWN)))
        end_by_reply_locked(team, number, call, reply);
    unsigned long calls = atomic_load_explicit(&team->calls, memory_order_relaxed);
    atomic_store_explicit(&team->calls, calls + 1, memory_order_relaxed);
}

// Asks a member's call of the engine, and writes it in the record, if one is kept.
static void ask_locked(struct team *team, int number, const struct traits *traits, const struct call *call,
                       struct reply *reply)
{
    if (team->record >= 0)
        record_call(team->record, number, call);
    engine_ask(team->engine, number, traits, call, reply);
    check_reply_locked(team, number, call, reply);
}

// Asks again for a member that waits with this call.
static void ask_resume_locked(struct team *team, int number, const struct call *call, struct reply *reply)
{
    if (team->record >= 0)
        record_resume(team->record, number);
    engine_ask_again(team->engine, number, call, reply);
    check_reply_locked(team, number, call, reply);
}

// What a member waits for that made this call. If an engine lets one wait that never has to, it is asked again
// at each leaving.
static enum wait waits_for(const struct call *call)
{
    enum wait wait = call_traits(call->kind)->wait;
    return wait != WAIT_NOT ? wait : WAIT_LEAVE;
}

// Whom a call lets pass that was not answered `wait`.
static unsigned lets_pass(const struct call *call, const struct reply *reply)
{
    return reply->kind == REPLY_RUN ? WAIT_NOT : call_traits(call->kind)->lets;
}

// A hold behind those that are noted is counted alone.
static void note_hold_locked(struct member *member, const struct call *call)
{
    if (member->holds < HOLDS_NOTED) {
        struct hold *hold = &member->held[member->holds];
        hold->call = *call;
        hold->task = member->task != NULL ? member->task->number : 0;
        hold->is_left = false;
    }
    member->holds++;
}

static void note_free_locked(struct member *member, const struct call *call)
{
    int noted = member->holds < HOLDS_NOTED ? member->holds : HOLDS_NOTED, at = 0;
    while (at < noted && !call_is_of_one_hold(&member->held[at].call, call))
        at++;
    if (at + 1 < noted)
        memmove(&member->held[at], &member->held[at + 1], (size_t)(noted - at - 1) * sizeof member->held[at]);
    if (at < noted && noted < member->holds)
        member->held[noted - 1] = (struct hold){.call.kind = CALL_NONE}; // one that was not noted
    member->holds--;
}

// Notes the locks that a task leaves set at its end.
APART static void note_left_locked(struct member *member, const struct task *ended)
{
    for (int i = 0; i < member->holds && i < HOLDS_NOTED; i++)
        member->held[i].is_left |= member->held[i].task == ended->number;
}

static void note_share_locked(struct member *member, const struct call *call, const struct reply *reply)
{
    member->shares++;
    call_keep_words(&member->share, call_traits(call->kind), call);
    member->inside = call->kind == CALL_LOOP || call->kind == CALL_SECTIONS ||
                     (call->kind == CALL_SINGLE_COPY && reply->kind == REPLY_EXECUTOR);
}

// Notes what a call has taken or freed of a name or a lock, by its reply.
APART static void note_hold_change_locked(struct member *member, const struct call *call,
                                          const struct reply *reply)
{
    if (call_takes_hold(call, reply))
        note_hold_locked(member, call);
    if (call_frees_hold(call, reply))
        note_free_locked(member, call);
}

// Notes what a member has started, left, passed, opened or ended.
static void note_class_locked(struct team *team, struct member *member, const struct traits *traits,
                              const struct call *call, const struct reply *reply)
{
    switch (traits->class) {
    case CLASS_INSIDE: break;
    case CLASS_START: note_share_locked(member, call, reply); break;
    case CLASS_END: member->inside = false; break;
    case CLASS_BARRIER:
        member->barriers++;
        member->has_copies = false;
        break;
    case CLASS_GROUP: member->groups++; break;
    case CLASS_GROUP_END: member->groups--; break;
    case CLASS_CRITICAL:
    case CLASS_LOCK_USED: note_hold_change_locked(member, call, reply); break;
    case CLASS_LOCK_MADE:
    case CLASS_LOCK_DESTROYED: locks_made_note(&team->locks_made, call, reply); break;
    case CLASS_TASK_END: note_left_locked(member, call->task); break;
    case CLASS_REGION_END: team->passed++; break;
    case CLASS_NONE:
    case CLASS_TASK:
    case CLASS_TASKWAIT:
    case CLASS_CANCEL: break;
    }
}

// Notes what a reply says of tasks, or of what is cancelled.
APART static void note_news_locked(struct team *team, struct member *member, const struct call *call,
                                   const struct reply *reply)
{
    if (cancellation || leave_is_told_by(reply))
        leave_note_locked(team, member, call, reply);
    if (reply_is_of(reply, ANSWERS_OF_TASKS))
        tasks_made_note(&team->tasks_made, &member->task, call, reply);
}

// Keeps the notes of a member for messages.
static void note_reply_locked(struct team *team, struct member *member, const struct traits *traits,
                              const struct call *call, const struct reply *reply)
{
    mutex_expect_held(&team->lock);
    if (cancellation || reply_is_of(reply, ANSWERS_OF_LEAVING | ANSWERS_OF_TASKS))
        note_news_locked(team, member, call, reply);
    if (!reply_is_of(reply, ANSWER(RUN) | ANSWER(CANCELLED)))
        note_class_locked(team, member, traits, call, reply);
}

// Skips a call. The engine still has the group open that such a call ends.
static void skip_locked(struct member *member, const struct call *call, struct reply *reply)
{
    if (call->kind == CALL_GROUP_END)
        member->groups--;
    *reply = (struct reply){.kind = REPLY_SKIPPED};
}

// Lets a member that waits go on with its reply.
static void wake_locked(struct team *team, struct member *member, const struct reply *reply)
{
    member->wait = WAIT_NOT;
    member->is_unasked = false;
    team->waiting--;
    post_tell_locked(member, reply);
}

// Skips the call that a member waits with.
static void skip_and_wake_locked(struct team *team, struct member *member)
{
    struct reply reply;
    skip_locked(member, &member->last, &reply);
    wake_locked(team, member, &reply);
}

// Whether it is too early to ask for a member (leave.c), unless it is asked whether all are stuck.
static bool waits_for_later_locked(const struct team *team, int number, unsigned let)
{
    return let != WAIT_ANY && leave_is_too_early_locked(team, number, &team->members[number].last);
}

// Asks for a member that waits: again, or for the first time. It is woken if it may go on, or is to execute a task.
// Answers whether it is woken.
APART WHOLE static bool ask_one_locked(struct team *team, int number)
{
    struct member *member = &team->members[number];
    struct reply reply;
    if (member->is_unasked)
        ask_locked(team, number, call_traits(member->last.kind), &member->last, &reply);
    else
        ask_resume_locked(team, number, &member->last, &reply);
    member->is_unasked = false;
    if (reply.kind == REPLY_WAIT)
        return false;
    note_reply_locked(team, member, call_traits(member->last.kind), &member->last, &reply);
    wake_locked(team, member, &reply);
    return true;
}

// Takes what is let pass in turn by a member that waited so, and is woken.
static unsigned let_in_turn(const struct member *member, enum wait wait)
{
    return wait == WAIT_ARRIVAL
               ? WAIT_NOT
               : lets_pass(&member->last, &member->reply); // the last to arrive has let all pass
}

// Asks once more for each member that waits for one of these. Answers whom the replies let pass in turn.
static unsigned ask_again_locked(struct team *team, unsigned let)
{
    unsigned lets = WAIT_NOT;
    for (int number = 0; number < team->size; number++) {
        const struct member *member = &team->members[number];
        enum wait wait = member->wait;
        if (wait & let && !waits_for_later_locked(team, number, let) && ask_one_locked(team, number))
            lets |= let_in_turn(member, wait);
    }
    return lets;
}

static bool are_all_at_end_locked(const struct team *team)
{
    for (int number = 0; number < team->size; number++)
        if (team->members[number].last.kind != CALL_REGION_END)
            return false;
    return true;
}

// The same in a cancelled region, one after another: who is woken may make it time for another. The region's end
// is passed once all are there.
static unsigned ask_cancelled_locked(struct team *team, unsigned let)
{
    bool is_some_woken = false, is_end = are_all_at_end_locked(team);
    for (int number = 0; number < team->size; number++) {
        struct member *member = &team->members[number];
        bool is_early = leave_is_too_early_locked(team, number, &member->last) ||
                        (member->last.kind == CALL_REGION_END && !is_end);
        if (!(member->wait & let))
            continue;
        if (member->is_unasked && leave_is_hopeless_locked(team, number, &member->last)) {
            skip_and_wake_locked(team, member);
            is_some_woken = true;
        } else if (!is_early && ask_one_locked(team, number)) {
            is_some_woken = true;
        }
    }
    return is_some_woken ? WAIT_IN_CANCELLED : WAIT_NOT;
}

// The member that waits longest for one of these, of those whose wait began after another; -1 if there is
// none. `freed` is the call that has freed a name or lock, if it is for one that they wait.
static int next_waiter_locked(const struct team *team, unsigned let, const struct call *freed,
                              unsigned long after)
{
    int next = -1;
    for (int number = 0; number < team->size; number++) {
        const struct member *member = &team->members[number];
        if (member->wait & let && member->since > after &&
            (freed == NULL || call_is_of_one_hold(&member->last, freed)) &&
            (next < 0 || member->since < team->members[next].since))
            next = number;
    }
    return next;
}

// Hands what one member alone can have to the one that waits longest of those that may have it. Answers
// whether there is one.
static bool hand_on_locked(struct team *team, unsigned let, const struct call *freed)
{
    unsigned long after = 0;
    int number;
    while ((number = next_waiter_locked(team, let, freed, after)) >= 0) {
        after = team->members[number].since;
        if (ask_one_locked(team, number))
            return true;
    }
    return false;
}

static void let_others_pass_locked(struct team *team, unsigned let)
{
    while (let != WAIT_NOT && team->waiting > 0)
        let = team->is_cancelled ? ask_cancelled_locked(team, let) : ask_again_locked(team, let);
}

// Who waits at a barrier is asked first, since it may begin any task; if it has to wait, so have the others
// there. Answers whether a member is woken.
static bool offer_task_locked(struct team *team)
{
    int first = next_waiter_locked(team, WAIT_ARRIVAL, NULL, 0);
    if (team->is_cancelled) // there are no more tasks to be begun
        return false;
    if (first >= 0 && ask_one_locked(team, first))
        return true;
    return hand_on_locked(team, WAIT_CHILDREN | WAIT_GROUP, NULL);
}

// Offers the tasks that the end of one may have freed: which these are the engine alone knows.
static void offer_freed_locked(struct team *team)
{
    while (team->tasks_made.with_items > 0 && team->waiting > 0 && offer_task_locked(team))
        ;
}

// The member that executes the task which has created this one; -1 if there is none.
int team_parent_of_locked(const struct team *team, const struct task *task)
{
    for (int number = 0; number < team->size; number++) {
        const struct task *current = team->members[number].task;
        if (current != NULL ? current->number == task->parent : task->parent == 0 && number == task->creator)
            return number;
    }
    return -1;
}

static void let_waiters_for_task_pass_locked(struct team *team, const struct task *ended)
{
    int parent = team_parent_of_locked(team, ended);
    if (parent >= 0 && team->members[parent].wait == WAIT_CHILDREN)
        ask_one_locked(team, parent);
    let_others_pass_locked(team, WAIT_GROUP);
}

// Wakes those whom a call lets go on that was not answered `wait`.
APART static void wake_others_locked(struct team *team, const struct call *call, const struct reply *reply)
{
    if (call_frees_hold(call, reply)) {
        hand_on_locked(team, WAIT_HOLD, call);
    } else if (call->kind == CALL_TASK_END) {
        let_waiters_for_task_pass_locked(team, call->task);
        offer_freed_locked(team);
    } else if (reply->kind == REPLY_CREATED) {
        offer_task_locked(team);
    } else if (call->kind == CALL_CANCEL && reply->count != 0) { // the task's end offers what it frees
        let_others_pass_locked(team, WAIT_CHILDREN | WAIT_GROUP);
    } else if (!team->is_cancelled) {
        let_others_pass_locked(team, lets_pass(call, reply));
    }
    if (team->is_cancelled)
        let_others_pass_locked(team, WAIT_IN_CANCELLED);
}

// Where all members of a cancelled region wait: ends the wait of one that nothing else would end.
static void skip_one_locked(struct team *team)
{
    int number = team->waiting == team->size ? leave_last_resort_locked(team) : -1;
    if (number < 0)
        return;
    struct member *member = &team->members[number];
    member->is_stranded |= member->last.kind == CALL_LOOP_NEXT;
    skip_and_wake_locked(team, member);
}

// Notes that a member waits with its call, and lets go on whom that lets.
APART static void begin_wait_locked(struct team *team, int number, const struct call *call)
{
    mutex_expect_held(&team->lock);
    struct member *member = &team->members[number];
    member->wait = waits_for(call);
    member->since = ++team->waits;
    team->waiting++;
    if (team->is_cancelled)
        let_others_pass_locked(team, WAIT_IN_CANCELLED);
    if (team->waiting == team->size) {
        let_others_pass_locked(team, WAIT_ANY);
        skip_one_locked(team);
        if (team->waiting == team->size) {
            leave_end_if_stuck_locked(team);
            report_deadlock_locked(team);
        }
    }
}

// Notes that the calling thread is a member.
void team_join(struct team *team, int number)
{
    if (own_thread == 0)
        own_thread = gettid();
    atomic_store_explicit(&team->members[number].thread, own_thread, memory_order_relaxed);
}

// Takes the reply `wait`. The call is kept with all that asking again needs.
APART static void take_wait_locked(struct team *team, int number, const struct traits *traits,
                                   const struct call *call, const struct reply *reply)
{
    struct member *member = &team->members[number];
    call_keep_words(&member->last, traits, call);
    member->last.can_leave = call->can_leave;
    if (call->kind == CALL_TASK)
        tasks_made_note(&team->tasks_made, &member->task, call, reply);
    begin_wait_locked(team, number, call);
}

// Takes the reply to the call of a member, or to its asking again: `wait` if the member has begun to wait.
static void take_reply_locked(struct team *team, int number, const struct traits *traits,
                              const struct call *call, struct reply *reply)
{
    struct member *member = &team->members[number];
    if (reply->kind == REPLY_WAIT) {
        take_wait_locked(team, number, traits, call, reply);
        return;
    }
    call_keep_words(&member->last, traits, call);
    note_reply_locked(team, member, traits, call, reply);
    if (team->waiting > 0)
        wake_others_locked(team, call, reply);
}

// Whether a call comes too early (leave.c). It is then the one that the member waits with.
static bool comes_too_early_locked(struct team *team, int number, const struct call *call)
{
    struct member *member = &team->members[number];
    if (call_traits(call->kind)->class == CLASS_BARRIER)
        member->is_copying = false;
    if (!leave_is_too_early_locked(team, number, call))
        return false;
    member->last = *call;
    return true;
}

// Where a region may be cancelled: answers whether the call is skipped, or its member waits before it is made.
APART static bool is_kept_back_locked(struct team *team, int number, const struct call *call,
                                      struct reply *reply)
{
    if (leave_is_hopeless_locked(team, number, call)) {
        skip_locked(&team->members[number], call, reply);
        return true;
    }
    if (!comes_too_early_locked(team, number, call))
        return false;
    team->members[number].is_unasked = true;
    reply->kind = REPLY_WAIT;
    begin_wait_locked(team, number, call);
    return true;
}

// The same of a question for a member that has waited.
APART static bool is_resume_kept_back_locked(struct team *team, int number, const struct call *call,
                                             struct reply *reply)
{
    if (!comes_too_early_locked(team, number, call))
        return false;
    reply->kind = REPLY_WAIT;
    begin_wait_locked(team, number, call);
    return true;
}

// The classes of calls that `prepare_locked` has something to do for.
enum {
    CLASSES_PREPARED = 1U << CLASS_TASK | 1U << CLASS_TASKWAIT | 1U << CLASS_LOCK_MADE |
                       1U << CLASS_LOCK_DESTROYED | 1U << CLASS_LOCK_USED
};

// Before a call on a lock, one that creates a task, or one that has items, is made: numbers the task and the items,
// and writes what the record needs.
APART static void prepare_locked(struct team *team, int number, const struct call *call)
{
    if (call_is_on_lock(call)) {
        locks_made_record(&team->locks_made, team->record, number);
        return;
    }
    if (call->kind == CALL_TASK)
        tasks_made_add(&team->tasks_made, call, team->record);
    if (call->items != NULL)
        items_number(call->items, &team->tasks_made.addresses);
}

static inline void call_of_kind_locked(struct team *team, int number, const struct traits *traits,
                                       const struct call *call, struct reply *reply)
{
    if (CLASSES_PREPARED >> traits->class & 1)
        prepare_locked(team, number, call);
    if (cancellation && is_kept_back_locked(team, number, call, reply))
        return;
    ask_locked(team, number, traits, call, reply);
    take_reply_locked(team, number, traits, call, reply);
}

static void call_locked(struct team *team, int number, const struct call *call, struct reply *reply)
{
    call_of_kind_locked(team, number, call_traits(call->kind), call, reply);
}

// The same of a call for the next chunk.
static void next_locked(struct team *team, int number, const struct call *call, struct reply *reply)
{
    call_of_kind_locked(team, number, call_traits(CALL_LOOP_NEXT), call, reply);
}

static void resume_locked(struct team *team, int number, const struct call *call, struct reply *reply)
{
    if (cancellation && is_resume_kept_back_locked(team, number, call, reply))
        return;
    ask_resume_locked(team, number, call, reply);
    take_reply_locked(team, number, call_traits(call->kind), call, reply);
}

// Makes a call that a member has posted, or asks again for it.
void team_make_locked(struct team *team, int number, bool asks_again, const struct call *call,
                      struct reply *reply)
{
    if (asks_again)
        resume_locked(team, number, call, reply);
    else
        call_locked(team, number, call, reply);
}

// Makes a call of a member, by itself or by the thread that has the lock, and waits for its reply.
static void make_call_of(struct team *team, int number, make_call *make, const struct call *call,
                         struct reply *reply)
{
    if (!mutex_try_lock(&team->lock)) {
        post_call(team, number, make == resume_locked, call, reply);
        return;
    }
    make(team, number, call, reply);
    if (reply->kind == REPLY_WAIT) {
        post_wait_and_unlock(team, number, reply);
        return;
    }
    if (team->size > 1)
        post_make_all_locked(team);
    mutex_unlock(&team->lock);
}

// Makes a member's call. Its reply is not `wait`: after `run` and the end of that task the member asks again.
APART WHOLE void team_call(struct team *team, int number, const struct call *call, struct reply *reply)
{
    make_call_of(team, number, call_locked, call, reply);
}

// Makes a member's call for its next chunk, which a loop makes again and again: what is known of its kind is known when
// this is compiled.
APART WHOLE void team_next(struct team *team, int number, const struct call *call, struct reply *reply)
{
    make_call_of(team, number, next_locked, call, reply);
}

// Asks again for a call that was answered `run`.
APART WHOLE void team_resume(struct team *team, int number, const struct call *call, struct reply *reply)
{
    make_call_of(team, number, resume_locked, call, reply);
}

// Whether a member is in a construct of its team that no other team can stand in for.
bool member_is_engaged(const struct member *member)
{
    return member->inside || member->task != NULL || member->groups > 0;
}

// Begins a team of so many members. Their threads are started, if there are others than the caller's, while its engine
// begins: what they call then is posted.
void team_begin(struct team *team, int size, start_members *start, void *region)
{
    mutex_lock(&team->lock);
    team->size = size;
    team->waiting = team->passed = 0;
    team->in_use = true;
    team->is_cancelled = team->has_cancelled = false;
    team->number = atomic_fetch_add(&teams_begun, 1) + 1;
    team->record = record_open();
    team->locks_made.recorded = false;
    for (int number = 0; number < size; number++) {
        struct member *member = &team->members[number];
        member->thread = 0;
        member->last.kind = member->share.kind = CALL_NONE;
        member->inside = member->is_leaving = member->is_unasked = false;
        member->has_copies = member->is_copying = member->is_stranded = false;
        member->shares = member->barriers = 0;
        member->task = NULL;
        member->groups = 0;
        member->holds = 0;
        member->wait = WAIT_NOT;
    }
    if (size > 1)
        start(region);
    if (team->record >= 0)
        record_team(team->record, size);
    engine_begin(team->engine, size);
    post_make_all_locked(team);
    mutex_unlock(&team->lock);
}

static void finish(struct team *team)
{
    mutex_lock(&team->lock);
    memory_free_all_locked(team);
    tasks_made_free(&team->tasks_made);
    record_close(team->record);
    team->record = -1;
    for (int number = 0; number < team->size; number++)
        team->members[number].holds = 0;
    team->in_use = false;
    mutex_unlock(&team->lock);
}

static struct team *team_make(void)
{
    struct team *team = aligned_alloc(CACHE_LINE, sizeof *team);
    if (team == NULL)
        end_by_fault("no memory for a team");
    memset(team, 0, sizeof *team);
    team->engine = engine_start();
    mutex_init(&team->lock, RANK_TEAM);
    team->next_of_all = atomic_load(&all_teams);
    while (!atomic_compare_exchange_weak(&all_teams, &team->next_of_all, team))
        ;
    return team;
}

// A team that no thread has, with an engine of its own: one that was given back, or a new one.
struct team *team_take(void)
{
    mutex_lock(&teams_lock);
    struct team *team = idle_teams;
    if (team != NULL)
        idle_teams = team->next;
    mutex_unlock(&teams_lock);
    watch_begin();
    return team != NULL ? team : team_make();
}

void team_give_back(struct team *team)
{
    finish(team);
    mutex_lock(&teams_lock);
    team->next = idle_teams;
    idle_teams = team;
    mutex_unlock(&teams_lock);
}

// Ends a team, if it is in use. Its engine, with the locks that were made in it, is kept for the same thread's next one.
void team_rest(struct team *team)
{
    if (team->in_use)
        finish(team);
}

// Whether all members have passed the region's end, so that none makes a call of it any more. One that was given a task there asks
// once more behind it, when others may have passed.
bool team_is_passed(struct team *team)
{
    mutex_lock(&team->lock);
    bool is_passed = team->passed == team->size;
    mutex_unlock(&team->lock);
    return is_passed;
}

// The teams one after another, from the first one (after NULL); NULL at the end.
struct team *team_after(struct team *team)
{
    return team == NULL ? atomic_load(&all_teams) : team->next_of_all;
}

// How many calls were answered by all teams.
unsigned long calls_made(void)
{
    unsigned long sum = 0;
    for (struct team *team = team_after(NULL); team != NULL; team = team_after(team))
        sum += atomic_load_explicit(&team->calls, memory_order_relaxed);
    return sum;
}

// In a child that the program forked: the teams are its parent's.
void teams_forget(void)
{
    mutex_init(&teams_lock, RANK_TEAMS);
    idle_teams = NULL;
    atomic_store(&all_teams, NULL);
    own_thread = 0;
}
