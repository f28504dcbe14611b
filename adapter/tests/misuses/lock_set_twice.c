// E30 AlreadyHeld: a simple lock is set by the thread that holds it.
// words: omp_set_lock of lock 0, holding lock 0
#include "../check.h"

static omp_lock_t lock;
static int count;

__attribute__((noinline)) static void add(void) {
    omp_set_lock(&lock);
    count++;
    omp_unset_lock(&lock);
}

int main(void) {
    omp_init_lock(&lock);
#pragma omp parallel
    {
        omp_set_lock(&lock);
        add();
        omp_unset_lock(&lock);
    }
    CHECK(count == asked(), "%d", count);
    return told();
}
