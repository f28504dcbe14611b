// Critical regions without a name: one member at a time, in regions one after another, and outside of them.
// steps: critical, critical_end
#include "../check.h"

static int count, inside;

__attribute__((noinline)) static void add(void) {
#pragma omp critical
    {
        CHECK(__atomic_add_fetch(&inside, 1, __ATOMIC_SEQ_CST) == 1, "not alone");
        int before = count;
        sched_yield();
        count = before + 1;
        __atomic_sub_fetch(&inside, 1, __ATOMIC_SEQ_CST);
    }
}

int main(void) {
    for (int round = 1; round <= 3; round++) {
#pragma omp parallel
        for (int k = 0; k < 10; k++)
            add();
        CHECK(count == round * asked() * 10, "%d in round %d", count, round);
    }
    int before = count;
    add();
    add();
    CHECK(count == before + 2, "%d", count);
#pragma omp parallel for schedule(dynamic, 3)
    for (int i = 0; i < 100; i++)
        add();
    CHECK(count == before + 102, "%d", count);
    return told();
}
