// E11 HoldsCritical: a critical region in a task is left by longjmp, and then the task ends.
// words: the end of #pragma omp task, inside of #pragma omp critical (ledger)
#include "../check.h"
#include <setjmp.h>

static int parts;

__attribute__((noinline)) static void part(jmp_buf *back) {
#pragma omp critical(ledger)
    {
        COUNT(parts);
        longjmp(*back, 1);
    }
}

__attribute__((noinline)) static void body(void) {
    jmp_buf back;
    if (!setjmp(back))
        part(&back);
}

int main(void) {
#pragma omp parallel
    {
#pragma omp task
        body();
    }
    CHECK(parts == asked(), "%d parts", parts);
    return told();
}
