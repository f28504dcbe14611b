// E25 GroupOpen: a taskgroup is left by longjmp, and then the parallel region ends.
// words: the end of the parallel region
#include "../check.h"
#include <setjmp.h>

static int parts;

__attribute__((noinline)) static void part(jmp_buf *back) {
#pragma omp taskgroup
    {
        COUNT(parts);
        longjmp(*back, 1);
    }
}

__attribute__((noinline)) static void body(void) {
    jmp_buf back;
    if (!setjmp(back))
        part(&back);
}

int main(void) {
#pragma omp parallel
    body();
    CHECK(parts == asked(), "%d parts", parts);
    return told();
}
