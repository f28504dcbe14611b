// How a member comes to its reply if it cannot make its call at once, or has to wait with it.
//
// A member that finds the team's lock held posts its call, in a place of its own. Who has the lock makes the calls that
// are posted before it gives the lock up, and tells each member its reply. Who waits, and has the lock, keeps it for a
// moment, and makes the others' calls: one of these may well be what it waits for. So the team, of which each call reads
// and changes much, stays on one processor, and what goes to another and back is a post and a reply, a line of the cache
// each. That no call and no wake-up is lost is argued in team.c.
#define _GNU_SOURCE
#include "post.h"

#include "futex.h"
#include "semaphores.h"

#include <stdatomic.h>

// In a team of so many members each one's post is looked at; in a larger one only if some member says that there is any.
enum { FEW_MEMBERS = 8 };

// How often a member that begins to wait looks at the others' posts before it gives the lock up: a microsecond or two.
enum { LOOKS_AT_POSTS = 200 };

// How seldom a member that has posted a call looks at the lock. Who had it is most often back at once, with its next call:
// so the team is not to be taken from its processor in between.
enum { TURNS_TO_A_LOOK = 16 };

static bool is_told(const struct member *member)
{
    return atomic_load_explicit(&member->is_told, memory_order_acquire) != 0;
}

// Tells a member the reply to the call that it has posted, or waits with: it goes on. A store is enough for one that is awake.
void post_tell_locked(struct member *member, const struct reply *reply)
{
    member->reply = *reply;
    atomic_store_explicit(&member->is_told, 1, memory_order_release);
    if (member->is_asleep) {
        member->is_asleep = false;
        futex_wake(&member->is_told);
    }
}

// Takes the reply that the member is told.
static void take_told(struct member *member, struct reply *reply)
{
    *reply = member->reply;
    atomic_store_explicit(&member->is_told, 0, memory_order_relaxed);
}

// Whether a member has posted a call that is not begun. At most one is, so the numbers differ by one then.
static bool has_posted(const struct team *team, int number)
{
    return atomic_load_explicit(&team->members[number].posts, memory_order_acquire) !=
           atomic_load_explicit(&team->begun[number], memory_order_relaxed);
}

// The members that have posted calls: a bit for each.
static uint64_t posts_locked(struct team *team)
{
    uint64_t posts = 0;
    if (team->size > FEW_MEMBERS && (!atomic_load_explicit(&team->has_posts, memory_order_relaxed) ||
                                     !atomic_exchange(&team->has_posts, false)))
        return 0;
    for (int number = 0; number < team->size; number++)
        posts |= (uint64_t)has_posted(team, number) << number;
    return posts;
}

// Makes the call that a member has posted. The reply is told last: the member may post its next call then.
static void make_locked(struct team *team, int number)
{
    struct member *member = &team->members[number];
    struct reply reply;
    atomic_store_explicit(&team->begun[number], atomic_load_explicit(&member->posts, memory_order_relaxed),
                          memory_order_relaxed);
    team_make_locked(team, number, member->asks_again, &member->posted, &reply);
    if (reply.kind != REPLY_WAIT)
        post_tell_locked(member, &reply);
}

// Makes the calls that are posted now.
APART WHOLE void post_make_all_locked(struct team *team)
{
    mutex_expect_held(&team->lock);
    for (uint64_t posts = posts_locked(team); posts != 0; posts &= posts - 1)
        make_locked(team, __builtin_ctzll(posts));
}

// The same for a member that has posted a call: it looks at each post itself, its own above all.
static void make_own_locked(struct team *team)
{
    atomic_store_explicit(&team->has_posts, true, memory_order_relaxed);
    post_make_all_locked(team);
}

// Sleeps until the member is told its reply.
static void sleep_and_unlock(struct team *team, struct member *member)
{
    member->is_asleep = !is_told(member);
    mutex_unlock(&team->lock);
    while (!is_told(member))
        futex_wait(&member->is_told, 0, NULL);
}

// If nobody has the lock, makes the calls that are posted, this member's own among them. Answers whether it may still
// have to be made.
static bool make_all_if_free(struct team *team, int number)
{
    if (!mutex_is_free(&team->lock))
        return true;
    if (has_posted(team, number) && mutex_try_lock(&team->lock)) {
        make_own_locked(team);
        mutex_unlock(&team->lock);
    }
    return has_posted(team, number);
}

// Waits until the member is told its reply, to a call that may still have to be made, or that waits.
static void wait_until_told(struct team *team, int number, bool may_be_posted)
{
    struct member *member = &team->members[number];
    int turn = 0, most = turns_awake();
    while (turn < most && !is_set_in_turn(&member->is_told, turn)) {
        if (may_be_posted && turn % TURNS_TO_A_LOOK == TURNS_TO_A_LOOK - 1)
            may_be_posted = make_all_if_free(team, number);
        turn++;
    }
    if (turn == most) {
        mutex_lock(&team->lock);
        make_own_locked(team);
        sleep_and_unlock(team, member);
    }
}

// Posts a call of a member, or that it asks again with it, and waits for the reply.
APART void post_call(struct team *team, int number, bool asks_again, const struct call *call,
                     struct reply *reply)
{
    struct member *member = &team->members[number];
    unsigned posts = atomic_load_explicit(&member->posts, memory_order_relaxed);
    // Looked at before the post: once its region's end is posted the member knows no more of the team.
    bool is_large = team->size > FEW_MEMBERS;
    member->asks_again = asks_again;
    member->posted = *call;
    atomic_store_explicit(&member->posts, (unsigned char)(posts + 1), memory_order_release);
    if (is_large)
        atomic_store(&team->has_posts, true);
    wait_until_told(team, number, true);
    take_told(member, reply);
}

// Waits for the reply to a call of a member that was answered `wait`. It looks at the posts once more when it has the reply:
// who was told one before it may have come again. If threads are to sleep at once it keeps no lock.
APART void post_wait_and_unlock(struct team *team, int number, struct reply *reply)
{
    struct member *member = &team->members[number];
    int left = turns_awake() > 0 ? LOOKS_AT_POSTS : 1;
    do
        post_make_all_locked(team);
    while (!is_told(member) && --left > 0);
    if (is_told(member))
        post_make_all_locked(team);
    if (turns_awake() > 0) {
        mutex_unlock(&team->lock);
        wait_until_told(team, number, false);
    } else {
        sleep_and_unlock(team, member);
    }
    take_told(member, reply);
}
