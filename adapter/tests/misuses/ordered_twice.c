// E21 OrderedBackwards: an iteration has two ordered parts, reached through a function.
// words: #pragma omp ordered
#include "../check.h"

static int next;

__attribute__((noinline)) static void part(int number) {
#pragma omp ordered
    CHECK(next++ == number, "part %d", number);
}

int main(void) {
#pragma omp parallel
    {
#pragma omp for schedule(dynamic) ordered
        for (int i = 0; i < 10; i++) {
            part(2 * i);
            part(2 * i + 1);
        }
    }
    CHECK(next == 20, "%d parts", next);
    return told();
}
