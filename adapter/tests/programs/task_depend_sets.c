// depend mutexinoutset: tasks that exclude one another, after a writer and before a reader. depend inoutset, as gcc 13 hands it
// on, since gcc 12 has no word for it: tasks that do not wait for one another, between a writer and a reader.
// steps: task inoutset, task mutexinoutset, task in
#include "../check.h"

enum { TASKS = 50, SET = 5 };

static int counter, inside, begun, members[64];

static void exclusive(void) {
    counter = 0;
#pragma omp task depend(out : counter)
    counter = 1000;
    for (int k = 0; k < TASKS; k++)
#pragma omp task depend(mutexinoutset : counter)
    {
        CHECK(counter >= 1000, "%d", counter);
        int now = ++inside, before = counter;
        usleep(100);
        CHECK(now == 1 && inside == 1, "%d are inside", inside);
        counter = before + 1;
        inside--;
    }
#pragma omp task depend(in : counter)
    CHECK(counter == 1000 + TASKS, "%d", counter);
}

// Each of the set waits until all have begun; so each needs a member, and the team has so many.
static void together(int count) {
    static int value;
    omp_depend_t set;
#pragma omp depobj(set) depend(inout : value)
    ((void **)&set)[1] = (void *)SET;
#pragma omp task depend(out : value)
    value = 7;
    for (int k = 0; k < count; k++)
#pragma omp task depend(depobj : set) firstprivate(count)
    {
        CHECK(value == 7, "%d", value);
        COUNT(begun);
        while (__atomic_load_n(&begun, __ATOMIC_SEQ_CST) < count)
            usleep(100);
    }
#pragma omp task depend(in : value) firstprivate(count)
    CHECK(begun == count, "%d of %d have begun", begun, count);
#pragma omp taskwait
}

int main(void) {
#pragma omp parallel
    {
        COUNT(members[omp_get_thread_num()]);
#pragma omp single
        {
            exclusive();
            together(omp_get_num_threads());
        }
    }
    check_each(members, asked(), 1, "member");
    CHECK(counter == 1000 + TASKS, "%d", counter);
    return told();
}
