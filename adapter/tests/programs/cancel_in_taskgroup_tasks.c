// A region is cancelled while a member is in a taskgroup whose tasks are being executed. It goes out of the taskgroup once these
// have ended, their descendants too, since they use its variables; it does not wait there for a task that it created before.
// environment: OMP_CANCELLATION=true
// steps: cancel parallel 1, group, task, barrier, region_end
#include "../check.h"

#define ROUNDS 6
#define READ(word) __atomic_load_n(&(word), __ATOMIC_SEQ_CST)
#define SET(word) __atomic_store_n(&(word), 1, __ATOMIC_SEQ_CST)

// What each member has in its part of the region, as long as it is there: of its tasks, those of the taskgroup that used it.
struct own {
    int member, begun, ended;
};

static int running, is_cancelled, is_out, earlier, behind;

// At the end of the variable's scope, which the cancellation too leads out of.
static void go_out(struct own *own) {
    CHECK(READ(own->begun) == READ(own->ended), "%d begun, %d ended", own->begun, own->ended);
    if (own->member == 0)
        SET(is_cancelled);
    if (own->member == omp_get_num_threads() - 1)
        SET(is_out);
}

// A task, and a child of it that outlives it.
static void create(struct own *own) {
#pragma omp task
    {
        COUNT(own->begun);
#pragma omp task
        {
            COUNT(own->begun);
            COUNT(running);
            while (!READ(is_cancelled))
                sched_yield();
            usleep(2000);
            COUNT(own->ended);
        }
        COUNT(own->ended);
    }
}

// A task that ends once the member that created it is out of the region's block.
static void create_earlier(void) {
#pragma omp task
    {
        COUNT(running);
        while (!READ(is_out))
            sched_yield();
        COUNT(earlier);
    }
}

// Waits until the two tasks are being executed, by members of their own if the team has so many.
static void await_tasks(int members) {
    while (READ(running) < (members > 3 ? 2 : members > 2))
        sched_yield();
}

int main(void) {
    for (int round = 0; round < ROUNDS; round++) {
        running = is_cancelled = is_out = earlier = behind = 0;
#pragma omp parallel
        {
            int members = omp_get_num_threads();
            struct own own __attribute__((cleanup(go_out))) = {.member = omp_get_thread_num()};
            if (own.member == 0) {
                await_tasks(members);
#pragma omp cancel parallel
                COUNT(behind);
            }
            if (own.member == members - 1 && members > 3)
                create_earlier();
#pragma omp taskgroup
            {
                if (own.member == members - 1) {
                    create(&own);
                    await_tasks(members);
                }
#pragma omp for
                for (int i = 0; i < 64; i++)
                    ;
                COUNT(behind);
            }
            COUNT(behind);
        }
        CHECK(behind == 0, "%d went on", behind);
        CHECK(earlier == (asked() > 3), "%d", earlier);
    }
    return told();
}
