// E20 NotOrdered: an ordered part in a loop without the ordered clause, reached through a function.
// words: #pragma omp ordered
#include "../check.h"

static int next;

__attribute__((noinline)) static void part(int i) {
#pragma omp ordered
    CHECK(next++ == i, "iteration %d", i);
}

int main(void) {
#pragma omp parallel
    {
#pragma omp for schedule(dynamic)
        for (int i = 0; i < 10; i++)
            part(i);
    }
    CHECK(next == 10, "%d parts", next);
    return told();
}
