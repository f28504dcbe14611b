// E9 OutsideShare: an ordered part in no loop, reached through a function.
// words: #pragma omp ordered
#include "../check.h"

static int parts;

__attribute__((noinline)) static void part(void) {
#pragma omp ordered
    COUNT(parts);
}

int main(void) {
#pragma omp parallel
    part();
    CHECK(parts == asked(), "%d parts", parts);
    return told();
}
