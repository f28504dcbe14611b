// E34 TooManyShares: more shares in one region than Dillbeam's 131,064.
// threads: 1
// words: #pragma omp single
// limit: yes
#include "../check.h"

int main(void) {
    int singles = 0;
#pragma omp parallel
    for (int round = 0; round < 131065; round++)
#pragma omp single nowait
        singles++;
    CHECK(singles == 131065, "%d singles", singles);
    return told();
}
