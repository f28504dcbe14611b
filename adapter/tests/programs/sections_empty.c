// Sections with empty ones among them, a single section, and sections without a directive `section`.
// steps: sections 3, sections 1, section_next
#include "../check.h"

int main(void) {
    int one = 0, middle = 0;
#pragma omp parallel
    {
#pragma omp sections
        {
#pragma omp section
            {}
#pragma omp section
            COUNT(middle);
#pragma omp section
            ;
        }
#pragma omp sections nowait
        {
#pragma omp section
            COUNT(one);
        }
#pragma omp sections
        { COUNT(one); }
    }
    CHECK(middle == 1 && one == 2, "%d %d", middle, one);
    return told();
}
