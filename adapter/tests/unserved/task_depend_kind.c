// a depend clause with an omp_depend_t of unknown kind: it was never made.
#include "../check.h"

int main(void) {
    int number = 0;
    omp_depend_t object;
    memset(&object, 1, sizeof object);
#pragma omp parallel
#pragma omp single
    {
#pragma omp task depend(depobj : object)
        COUNT(number);
    }
    CHECK(number == 1, "%d", number);
    return told();
}
