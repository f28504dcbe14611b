// An if clause that is false: the creator goes on when the task has ended, and with depend it begins after those that it names;
// its data are copied. omp_in_final, and a final clause: the tasks in a final one are final and executed at once. A priority
// changes nothing.
// steps: task if0, task if0 in, task final, task_end
#include "../check.h"

static int late, order[4], done, count, finals;

static void at_once(int k) {
    int value = k, member = omp_get_thread_num();
#pragma omp task if (0) shared(value) firstprivate(k, member)
    {
        CHECK(omp_get_thread_num() == member, "member %d, not %d", omp_get_thread_num(), member);
        CHECK(!omp_in_final(), "it is final");
        value = k + 1;
        k = 0;
    }
    CHECK(value == k + 1, "%d", value);
    COUNT(count);
}

static void after_named(void) {
#pragma omp task depend(out : late)
    {
        usleep(2000);
        late++;
    }
    int before = -1;
#pragma omp task if (0) depend(in : late) shared(before)
    before = late;
    CHECK(before == 1, "%d", before);
#pragma omp task depend(inout : late)
    late++;
#pragma omp task if (0) depend(inout : late)
    late++;
    CHECK(late == 3, "%d", late);
}

static void note(int k) {
    order[done++] = k;
    COUNT(finals);
}

static void in_final(void) {
#pragma omp task final(1)
    {
        int member = omp_get_thread_num();
        CHECK(omp_in_final(), "it is not final");
        note(0);
#pragma omp task shared(done)
        {
            CHECK(omp_in_final() && omp_get_thread_num() == member, "member %d", omp_get_thread_num());
#pragma omp task depend(inout : done)
            note(1);
            note(2);
        }
        note(3);
    }
}

int main(void) {
#pragma omp parallel
#pragma omp single
    {
        for (int k = 0; k < 20; k++) {
#pragma omp task firstprivate(k) if (k % 2 == 0)
            at_once(k);
        }
        after_named();
        in_final();
        for (int k = 0; k < 20; k++)
#pragma omp task priority(k)
            COUNT(count);
    }
    CHECK(count == 40 && finals == 4 && !omp_in_final(), "%d, %d", count, finals);
    for (int k = 0; k < 4; k++)
        CHECK(order[k] == k, "%d is at %d", order[k], k);
    at_once(1);
    done = finals = 0;
    in_final();
    CHECK(count == 41 && finals == 4, "outside of a region: %d, %d", count, finals);
    return told();
}
