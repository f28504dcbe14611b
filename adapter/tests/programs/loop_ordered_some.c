// Loops with the ordered clause, of whose iterations some have no ordered part, or none has.
// steps: loop dynamic 1 ordered, loop dynamic 4 ordered, loop guided 1 ordered, loop static 2 ordered, ordered
#include "../check.h"

static void check(int turn[], int parts) {
#pragma omp single
    {
        CHECK(turn[0] == parts, "%d parts, not %d", turn[0], parts);
        turn[0] = 0, turn[1] = -1;
    }
}

#define PART(i) \
    do { \
        _Pragma("omp ordered") { \
            CHECK(turn[1] < (i), "iteration %d behind %d", (i), turn[1]); \
            turn[0]++, turn[1] = (i); \
        } \
    } while (0)

int main(void) {
    int turn[2] = {0, -1}, done[64] = {0};
#pragma omp parallel
    {
#pragma omp for schedule(dynamic) ordered
        for (int i = 0; i < 64; i++)
            if (i % 3 == 0)
                PART(i);
        check(turn, 22);
#pragma omp for schedule(dynamic, 4) ordered
        for (int i = 0; i < 64; i++)
            if (i % 5 == 2)
                PART(i);
        check(turn, 13);
#pragma omp for schedule(guided) ordered
        for (int i = 0; i < 64; i++)
            if (i > 50 || i == 0)
                PART(i);
        check(turn, 14);
#pragma omp for schedule(static, 2) ordered
        for (int i = 0; i < 64; i++)
            if (i % 4 > 1)
                PART(i);
        check(turn, 32);
#pragma omp for schedule(static) ordered
        for (int i = 0; i < 64; i++)
            if (i == 63)
                PART(i);
        check(turn, 1);
#pragma omp for schedule(dynamic, 2) ordered
        for (int i = 0; i < 64; i++) {
            COUNT(done[i]);
            if (i < 0)
                PART(i);
        }
    }
    check_each(done, 64, 1, "iteration");
    CHECK(turn[0] == 0, "%d parts", turn[0]);
    return told();
}
