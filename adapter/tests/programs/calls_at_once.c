// All members call at once, round after round, each with words of its own: a call that one thread makes for another has to be that
// one's, and so has the reply.
// steps: barrier, single, single_copy, loop dynamic 3, next, critical even, set, task, taskwait, sections
#include "../check.h"

#define ROUNDS 40
#define MOST 64

static omp_lock_t locks[MOST];
static int inside[MOST], tasks[MOST], iterations[7], sections, singles, even, odd;

// A lock, a name and tasks that are the member's own, or that of every second one.
static void own_calls(int me, int round) {
    omp_set_lock(&locks[me]);
    CHECK(inside[me]++ == 0, "lock %d in round %d", me, round);
    inside[me]--;
    omp_unset_lock(&locks[me]);
    if (me % 2 == 0) {
#pragma omp critical(even)
        even++;
    } else {
#pragma omp critical(odd)
        odd++;
    }
    int before = __atomic_load_n(&tasks[me], __ATOMIC_SEQ_CST);
    for (int k = 0; k < 2; k++) {
#pragma omp task firstprivate(me)
        COUNT(tasks[me]);
    }
#pragma omp taskwait
    int after = __atomic_load_n(&tasks[me], __ATOMIC_SEQ_CST);
    CHECK(after == before + 2, "tasks of %d in round %d: %d after %d", me, round, after, before);
}

static void shared_calls(int round) {
    int word = -1;
#pragma omp for schedule(dynamic, 3) nowait
    for (int k = 0; k < 7; k++)
        COUNT(iterations[k]);
#pragma omp single nowait
    singles++;
#pragma omp sections nowait
    {
#pragma omp section
        COUNT(sections);
#pragma omp section
        COUNT(sections);
    }
#pragma omp single copyprivate(word)
    word = 100 + round;
    CHECK(word == 100 + round, "%d in round %d", word, round);
}

int main(void) {
    int size = asked();
    for (int k = 0; k < MOST; k++)
        omp_init_lock(&locks[k]);
#pragma omp parallel
    for (int round = 0; round < ROUNDS; round++) {
        own_calls(omp_get_thread_num(), round);
#pragma omp barrier
        shared_calls(round);
    }
    check_each(iterations, 7, ROUNDS, "iterations");
    check_each(tasks, size, 2 * ROUNDS, "tasks");
    CHECK(sections == 2 * ROUNDS && singles == ROUNDS, "%d sections, %d singles", sections, singles);
    CHECK(even == (size + 1) / 2 * ROUNDS && odd == size / 2 * ROUNDS, "%d even, %d odd", even, odd);
    for (int k = 0; k < MOST; k++)
        omp_destroy_lock(&locks[k]);
    return told();
}
