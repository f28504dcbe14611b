// Constructs of all kinds in random orders, in regions that a member cancels somewhere, with work of random lengths: nothing is
// done twice, ordered parts keep their order, and none passes a barrier that the member has not come to. libgomp 12 hangs if
// ALL is 1: in singles with copyprivate and ordered static loops.
// environment: OMP_CANCELLATION=true ALL=1
// environment: OMP_CANCELLATION=true ALL=0
// environment: ALL=1
// steps: cancel parallel
#include "../check.h"

#define ROUNDS 60
#define STEPS 24
#define SIZE 24
#define KINDS 15

static int counts[STEPS][SIZE], last[STEPS], inside[STEPS], passed[STEPS], begun, ended;
static long in_critical, in_lock, criticals, locks;
static omp_lock_t lock;

static unsigned random_of(unsigned *state) {
    *state ^= *state << 13;
    *state ^= *state >> 17;
    return *state ^= *state << 5;
}

static void work(unsigned *state) {
    if (random_of(state) % 8 == 0)
        usleep(random_of(state) % 60);
}

static void part(int step, int i) {
    CHECK(__atomic_add_fetch(&inside[step], 1, __ATOMIC_SEQ_CST) == 1, "two parts at once");
    CHECK(i > last[step], "iteration %d after %d", i, last[step]);
    last[step] = i;
    COUNT(counts[step][i]);
    __atomic_sub_fetch(&inside[step], 1, __ATOMIC_SEQ_CST);
}

static void create(int step, int i) {
#pragma omp task
    {
        COUNT(begun);
        COUNT(counts[step][i]);
#pragma omp task
        {
            COUNT(begun);
            COUNT(ended);
        }
        if (i % 2) {
#pragma omp taskwait
        }
        COUNT(ended);
    }
}

static void region(unsigned seed, int who, int where, bool all) {
#pragma omp parallel
    {
        unsigned shared = seed, own = seed + 77 * (unsigned)omp_get_thread_num() + 1;
        bool is_canceller = omp_get_thread_num() == who % omp_get_num_threads();
        for (int step = 0; step < STEPS; step++) {
            int kind = (int)(random_of(&shared) % KINDS), word = -1;
            if ((kind == 3 && (!all || step < 8)) || (kind == 4 && !all) || (kind == 7 && (!all || step >= 8)))
                kind = 2; // a single with copyprivate may not come behind what is skipped
            work(&own);
            if (is_canceller && step == where) {
#pragma omp cancel parallel
            }
            switch (kind) {
            case 0: {
#pragma omp barrier
                COUNT(passed[step]);
            } break;
            case 1:
#pragma omp for schedule(dynamic, 2)
                for (int i = 0; i < SIZE; i++)
                    COUNT(counts[step][i]);
                COUNT(passed[step]);
                break;
            case 2:
#pragma omp for schedule(guided) nowait
                for (int i = 0; i < SIZE; i++)
                    COUNT(counts[step][i]);
                break;
            case 3:
#pragma omp for schedule(static, 2) ordered nowait
                for (int i = 0; i < SIZE; i++) {
                    work(&own);
#pragma omp ordered
                    part(step, i);
                }
                break;
            case 4:
#pragma omp for schedule(static) ordered
                for (int i = 0; i < SIZE; i++)
#pragma omp ordered
                    part(step, i);
                COUNT(passed[step]);
                break;
            case 5:
#pragma omp for schedule(dynamic, 3) ordered nowait
                for (int i = 0; i < SIZE; i++) {
                    work(&own);
#pragma omp ordered
                    part(step, i);
                }
                break;
            case 6:
#pragma omp single nowait
                COUNT(counts[step][0]);
                break;
            case 7:
#pragma omp single copyprivate(word)
            {
                COUNT(counts[step][0]);
                work(&own);
                word = step;
            }
                CHECK(word == step, "%d", word);
                COUNT(passed[step]);
                break;
            case 8:
#pragma omp sections nowait
            {
#pragma omp section
                COUNT(counts[step][0]);
#pragma omp section
                COUNT(counts[step][1]);
            } break;
            case 9:
#pragma omp critical
            {
                CHECK(++in_critical == 1, "%ld in a critical region", in_critical);
                criticals++;
                work(&own);
                in_critical--;
            } break;
            case 10:
                omp_set_lock(&lock);
                CHECK(++in_lock == 1, "%ld have the lock", in_lock);
                locks++;
                work(&own);
                in_lock--;
                omp_unset_lock(&lock);
                break;
            case 11:
#pragma omp taskgroup
                if (omp_get_thread_num() < SIZE)
                    create(step, omp_get_thread_num());
                break;
            case 12:
                if (omp_get_thread_num() < SIZE)
                    create(step, omp_get_thread_num());
                if (step % 2) {
#pragma omp taskwait
                }
                break;
            case 13: {
#pragma omp cancellation point parallel
            } break;
            default:
#pragma omp single
                COUNT(counts[step][0]);
                COUNT(passed[step]);
            }
        }
    }
}

int main(void) {
    bool all = getenv("ALL") && atoi(getenv("ALL"));
    omp_init_lock(&lock);
    memset(last, -1, sizeof last);
    for (int round = 0; round < ROUNDS; round++) {
        unsigned seed = 2463534242u + 7919u * (unsigned)round, state = seed + 5;
        int where = (int)(random_of(&state) % STEPS), who = (int)(random_of(&state) % 64);
        region(seed, who, where, all);
        for (int step = 0; step < STEPS; step++) {
            bool is_open = !omp_get_cancellation() || step < where;
            CHECK(is_open || passed[step] == 0, "round %d: %d passed at step %d", round, passed[step], step);
            for (int i = 0; i < SIZE; i++)
                CHECK(counts[step][i] <= 1, "round %d, step %d: %d was done %d times", round, step, i, counts[step][i]);
            CHECK(inside[step] == 0, "a part did not end");
            last[step] = -1;
            passed[step] = 0;
        }
        memset(counts, 0, sizeof counts);
        CHECK(begun == ended, "%d tasks begun, %d ended", begun, ended);
    }
    omp_destroy_lock(&lock);
    return told();
}
