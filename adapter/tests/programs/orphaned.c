// Constructs in functions, called outside of every region, where they are a team of one, and then by all members of one.
// steps: loop dynamic 1, loop guided 2, loop static 3, loop runtime 0|loop dynamic 1, sections 2, single, single_copy, ordered, barrier
#include "../check.h"

#define ITERATIONS 40
static int dynamic[ITERATIONS], guided[ITERATIONS], stat[ITERATIONS], runtime[ITERATIONS], sections[2], singles, copies;
static int turn;

static void loops(void) {
#pragma omp for schedule(dynamic)
    for (int i = 0; i < ITERATIONS; i++)
        COUNT(dynamic[i]);
#pragma omp for schedule(guided, 2) nowait
    for (int i = 0; i < ITERATIONS; i++)
        COUNT(guided[i]);
#pragma omp for schedule(runtime)
    for (int i = 0; i < ITERATIONS; i++)
        COUNT(runtime[i]);
#pragma omp single
    turn = 0;
#pragma omp for schedule(static, 3) ordered
    for (int i = 0; i < ITERATIONS; i++) {
        COUNT(stat[i]);
#pragma omp ordered
        {
            CHECK(turn == i, "iteration %d, turn %d", i, turn);
            turn++;
        }
    }
}

static void others(void) {
    int value = -1;
#pragma omp sections
    {
#pragma omp section
        COUNT(sections[0]);
#pragma omp section
        COUNT(sections[1]);
    }
#pragma omp single
    COUNT(singles);
#pragma omp single copyprivate(value)
    {
        value = 42;
        COUNT(copies);
    }
    CHECK(value == 42, "it is %d", value);
#pragma omp barrier
}

static void check(int times) {
    check_each(dynamic, ITERATIONS, times, "dynamic iteration");
    check_each(guided, ITERATIONS, times, "guided iteration");
    check_each(runtime, ITERATIONS, times, "runtime iteration");
    check_each(stat, ITERATIONS, times, "static iteration");
    check_each(sections, 2, times, "section");
    CHECK(singles == times && copies == times, "%d, %d", singles, copies);
    singles = copies = 0;
}

int main(void) {
    loops();
    others();
    check(1);
#pragma omp parallel
    {
        loops();
        others();
        loops();
        others();
    }
    check(2);
    others();
    loops();
    check(1);
    return told();
}
