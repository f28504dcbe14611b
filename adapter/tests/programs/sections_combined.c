// parallel sections in one directive: with num_threads, firstprivate and lastprivate, a reduction, a single section.
// steps: sections 3, sections 1, section_next, sections_end_nowait|region_end
#include "../check.h"

int main(void) {
    int done[3] = {0}, last = -1, first = 9, sum = 0, one = 0;
    for (int round = 0; round < 5; round++) {
#pragma omp parallel sections
        {
#pragma omp section
            COUNT(done[0]);
#pragma omp section
            COUNT(done[1]);
#pragma omp section
            COUNT(done[2]);
        }
#pragma omp parallel sections num_threads(2) firstprivate(first) lastprivate(last) reduction(+ : sum)
        {
#pragma omp section
            last = first, sum += 1;
#pragma omp section
            last = first + 1, sum += 10;
#pragma omp section
            last = first + 2, sum += 100;
        }
        CHECK(last == 11, "it is %d", last);
#pragma omp parallel sections
        { COUNT(one); }
    }
    check_each(done, 3, 5, "section");
    CHECK(sum == 555 && one == 5, "%d %d", sum, one);
    first = 9;
#pragma omp parallel sections firstprivate(first) lastprivate(first)
    {
#pragma omp section
        CHECK(first == 9, "it is %d", first);
#pragma omp section
        first = first + 4;
    }
    CHECK(first == 13 || first == 4 + 9, "it is %d", first);
    return told();
}
