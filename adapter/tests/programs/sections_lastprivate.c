// Sections with private, firstprivate, lastprivate and a reduction.
// steps: sections 4, section_next, barrier
#include "../check.h"

int main(void) {
    for (int round = 0; round < 5; round++) {
        int last = -1, first = 3, own = 8, product = 2, both = 20;
#pragma omp parallel
        {
#pragma omp sections lastprivate(last) firstprivate(first) private(own) reduction(* : product)
            {
#pragma omp section
                own = 1, product *= own + first;
#pragma omp section
                own = 2, product *= own + first;
#pragma omp section
                last = 5;
#pragma omp section
                last = first + 3;
            }
            CHECK(last == 6 && product == 40, "%d %d", last, product);
#pragma omp sections firstprivate(both) lastprivate(both)
            {
#pragma omp section
                CHECK(both == 20, "it is %d", both);
#pragma omp section
                both = 21;
            }
        }
        CHECK(last == 6 && own == 8 && product == 40 && both == 21, "%d %d %d %d", last, own, product, both);
    }
    return told();
}
