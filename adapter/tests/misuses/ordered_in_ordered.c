// E10 InOrdered: an ordered part in an ordered part, reached through a function.
// words: #pragma omp ordered
#include "../check.h"

static int parts;

__attribute__((noinline)) static void part(void) {
#pragma omp ordered
    COUNT(parts);
}

int main(void) {
#pragma omp parallel
    {
#pragma omp for schedule(dynamic) ordered
        for (int i = 0; i < 10; i++) {
#pragma omp ordered
            part();
        }
    }
    CHECK(parts == 10, "%d parts", parts);
    return told();
}
