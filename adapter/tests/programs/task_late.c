// Members that sleep at a barrier, a taskwait or a taskgroup's end are woken by a task that is created, and by one that ends,
// while another member never sleeps.
// threads: 2 4 16 64
// steps: task, taskwait, group_end, resume
#include "../check.h"

static void await(const int *word) {
    while (!__atomic_load_n(word, __ATOMIC_SEQ_CST))
        usleep(100);
}

static void set(int *word) {
    __atomic_store_n(word, 1, __ATOMIC_SEQ_CST);
}

// The children are executed by members that wait, and members wait for them.
static void create(void) {
    int at_barrier = 0, inner = 0, other = 0, outer = 0;
#pragma omp task shared(at_barrier)
    set(&at_barrier);
    await(&at_barrier);
#pragma omp task shared(inner, other, outer)
    {
        usleep(10000); // its creator is at the taskwait
#pragma omp task shared(inner)
        set(&inner);
        await(&inner);
#pragma omp task shared(other)
        set(&other);
#pragma omp taskwait
        set(&outer);
    }
    usleep(5000);
#pragma omp taskwait
    CHECK(inner && other && outer, "the child has not ended");
}

static void wait_for_late_ends(void) {
    int ended = 0;
#pragma omp task shared(ended)
    {
        usleep(10000);
        set(&ended);
    }
#pragma omp taskwait
    CHECK(ended, "the child has not ended");
#pragma omp taskgroup
    {
#pragma omp task shared(ended)
        {
            usleep(10000);
            ended = 2;
        }
    }
    CHECK(ended == 2, "the task of the group has not ended");
}

int main(void) {
    int passed = 0;
#pragma omp parallel
    {
        int me = omp_get_thread_num(), last = omp_get_num_threads() - 1;
        if (me == 0) {
            usleep(20000); // the others are at the barrier
            create();
            wait_for_late_ends();
            set(&passed);
        } else if (me == last && last > 1) {
            await(&passed);
        }
#pragma omp barrier
    }
    CHECK(passed, "member 0 has not passed");
    return told();
}
