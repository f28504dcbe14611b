// E10 InOrdered: an ordered part is left by longjmp, and then the next chunk is asked for.
// words: #pragma omp for
#include "../check.h"
#include <setjmp.h>

static int parts;

__attribute__((noinline)) static void part(jmp_buf *back) {
#pragma omp ordered
    {
        COUNT(parts);
        longjmp(*back, 1);
    }
}

__attribute__((noinline)) static void body(void) {
    jmp_buf back;
    if (!setjmp(back))
        part(&back);
}

int main(void) {
#pragma omp parallel
    {
#pragma omp for schedule(dynamic) ordered
        for (int i = 0; i < 10; i++)
            body();
    }
    CHECK(parts == 10, "%d parts", parts);
    return told();
}
