// GOMP_target_ext: a target region.
#include "../check.h"

int main(void) {
    int value = 1;
#pragma omp target map(tofrom : value)
    value = 2;
    CHECK(value == 2, "%d", value);
    return told();
}
