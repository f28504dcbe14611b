// #pragma omp cancel sections: sections are cancelled, which OMP_CANCELLATION turns on.
// environment: OMP_CANCELLATION=true
#include "../check.h"

int main(void) {
    int done = 0;
#pragma omp parallel
    {
#pragma omp sections
        {
#pragma omp section
            {
#pragma omp cancel sections
                COUNT(done);
            }
        }
    }
    CHECK(done == 0, "%d sections", done);
    return told();
}
