// depend in, out and inout: a chain of writers with readers between them, which see the number of the last writer; the next
// writer waits for all of them. In each kind, and by an omp_depend_t and an iterator.
// steps: task inout, task in, task_end
#include "../check.h"

enum { ROUNDS = 20, READERS = 5 };

static int number, copies[READERS], chain[100], chained;

static void rounds(void) {
    for (int round = 1; round <= ROUNDS; round++) {
#pragma omp task depend(out : number) firstprivate(round)
        {
            CHECK(number == round - 1, "%d before round %d", number, round);
            number = round;
        }
        for (int k = 0; k < READERS; k++) {
#pragma omp task depend(in : number) depend(out : copies[k]) firstprivate(round, k)
            {
                CHECK(number == round, "%d in round %d", number, round);
                copies[k] += number;
            }
        }
#pragma omp task depend(iterator(k = 0 : READERS), in : copies[k]) firstprivate(round)
        for (int k = 0; k < READERS; k++)
            CHECK(copies[k] == round * (round + 1) / 2, "copy %d is %d", k, copies[k]);
    }
}

static void links(void) {
    for (int k = 0; k < 100; k++)
#pragma omp task depend(inout : chained) firstprivate(k)
        chain[chained++] = k;
}

static void by_objects(void) {
    static int value;
    omp_depend_t writes, reads;
#pragma omp depobj(writes) depend(inout : value)
#pragma omp depobj(reads) depend(in : value)
    for (int k = 0; k < 10; k++) {
#pragma omp task depend(depobj : writes)
        value++;
#pragma omp task depend(depobj : reads) firstprivate(k)
        CHECK(value == k + 1, "%d, not %d", value, k + 1);
    }
#pragma omp depobj(writes) destroy
#pragma omp depobj(reads) destroy
#pragma omp taskwait
    CHECK(value == 10, "%d", value);
}

int main(void) {
#pragma omp parallel
#pragma omp single
    {
        rounds();
        links();
        by_objects();
    }
    CHECK(number == ROUNDS && chained == 100, "%d rounds, %d links", number, chained);
    for (int k = 0; k < 100; k++)
        CHECK(chain[k] == k, "%d is at %d", chain[k], k);
    number = 0;
    memset(copies, 0, sizeof copies);
    rounds();
    CHECK(number == ROUNDS, "%d rounds outside of a region", number);
    return told();
}
