// Sections: more and fewer than members, without a barrier, in a row; each is done once.
// steps: sections 12, sections 2, section_next, sections_end_nowait, barrier
#include "../check.h"

static int many[12], two[2];

static void more(void) {
#pragma omp sections
    {
#pragma omp section
        COUNT(many[0]);
#pragma omp section
        COUNT(many[1]);
#pragma omp section
        COUNT(many[2]);
#pragma omp section
        COUNT(many[3]);
#pragma omp section
        COUNT(many[4]);
#pragma omp section
        COUNT(many[5]);
#pragma omp section
        COUNT(many[6]);
#pragma omp section
        COUNT(many[7]);
#pragma omp section
        COUNT(many[8]);
#pragma omp section
        COUNT(many[9]);
#pragma omp section
        COUNT(many[10]);
#pragma omp section
        COUNT(many[11]);
    }
}

static void fewer(void) {
#pragma omp sections nowait
    {
#pragma omp section
        COUNT(two[0]);
#pragma omp section
        COUNT(two[1]);
    }
}

int main(void) {
#pragma omp parallel
    for (int round = 0; round < 5; round++) {
        more();
        fewer();
        fewer();
    }
    check_each(many, 12, 5, "section of many");
    check_each(two, 2, 10, "section of two");
    return told();
}
