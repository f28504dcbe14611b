// E28 TooManyDepends: a depend clause with 17 items, one more than Dillbeam's limit.
// words: #pragma omp task depend
// limit: yes
#include "../check.h"

static int numbers[17], count;

int main(void) {
#pragma omp parallel
#pragma omp single
    for (int n = 16; n <= 17; n++)
#pragma omp task depend(iterator(k = 0 : n), inout : numbers[k])
        COUNT(count);
    CHECK(count == 2, "%d", count);
    return told();
}
