// Ordered parts: in the order of the iterations, one at a time, of each schedule; several loops in a row.
// steps: loop dynamic 1 ordered, loop dynamic 3 ordered, loop guided 2 ordered, ordered, ordered_end, next
#include "../check.h"

static int turn, open_parts;

static void part(int i) {
#pragma omp ordered
    {
        CHECK(__atomic_add_fetch(&open_parts, 1, __ATOMIC_SEQ_CST) == 1, "iteration %d: not alone", i);
        CHECK(turn == i, "iteration %d, turn %d", i, turn);
        turn++;
        __atomic_sub_fetch(&open_parts, 1, __ATOMIC_SEQ_CST);
    }
}

static void check(int expected) {
#pragma omp single
    {
        CHECK(turn == expected, "%d parts", turn);
        turn = 0;
    }
}

int main(void) {
    int other = 0;
#pragma omp parallel
    {
#pragma omp for schedule(dynamic) ordered
        for (int i = 0; i < 70; i++)
            part(i);
        check(70);
#pragma omp for schedule(dynamic, 3) ordered
        for (int i = 0; i < 70; i++)
            part(i);
        check(70);
#pragma omp for schedule(guided, 2) ordered
        for (int i = 0; i < 70; i++)
            part(i);
        check(70);
#pragma omp for schedule(runtime) ordered
        for (int i = 0; i < 70; i++)
            part(i);
        check(70);
#pragma omp for schedule(dynamic, 2) ordered nowait
        for (int i = 0; i < 70; i++) {
#pragma omp ordered
            CHECK(i == other++, "iteration %d", i);
        }
#pragma omp for schedule(static, 2) ordered
        for (int i = 0; i < 70; i++)
            part(i);
        check(70);
    }
    return told();
}
