// E26 TooDeep: tasks inside of one another, 65 deep, one more than Dillbeam's limit.
// words: #pragma omp task
// limit: yes
#include "../check.h"

static int done;

static void go(int depth) {
    COUNT(done);
    if (depth > 0) {
#pragma omp task
        go(depth - 1);
    }
}

int main(void) {
#pragma omp parallel
    {
#pragma omp single
        go(65);
    }
    CHECK(done == 66, "%d", done);
    return told();
}
