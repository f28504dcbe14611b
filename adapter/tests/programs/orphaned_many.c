// More shares outside of every region than a team may have, 131,064: they go on.
// threads: 1
// steps: single
#include "../check.h"

int main(void) {
    int singles = 0, done = 0;
    for (int round = 0; round < 131200; round++)
#pragma omp single nowait
        singles++;
#pragma omp for schedule(dynamic, 5)
    for (int i = 0; i < 12; i++)
        done++;
    CHECK(singles == 131200 && done == 12, "%d singles, %d iterations", singles, done);
    return told();
}
