// E28 TooManyDepends: the depend clause of a taskwait with 40 items, above Dillbeam's limit of 16.
// words: #pragma omp taskwait depend
// limit: yes
#include "../check.h"

static int numbers[40];

int main(void) {
#pragma omp parallel
#pragma omp single
    for (int n = 16; n <= 40; n += 24) {
#pragma omp taskwait depend(iterator(k = 0 : n), in : numbers[k])
    }
    return told();
}
