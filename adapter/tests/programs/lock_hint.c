// Locks with a hint, which changes nothing. libgomp 12 declares these routines and has none of them, so they are looked up.
// flags: -ldl
// steps: lock_init, nest_init, set, set_nest
#define _GNU_SOURCE
#include "../check.h"
#include <dlfcn.h>

int main(void) {
    int count = 0, nest_count = 0;
    omp_lock_t lock;
    omp_nest_lock_t nest;
    void (*init)(omp_lock_t *, omp_sync_hint_t) = dlsym(RTLD_DEFAULT, "omp_init_lock_with_hint");
    void (*init_nest)(omp_nest_lock_t *, omp_sync_hint_t) = dlsym(RTLD_DEFAULT, "omp_init_nest_lock_with_hint");
    CHECK(init && init_nest, "no such routines");
    if (!init || !init_nest)
        return told();
#pragma omp parallel
    {
#pragma omp single
        {
            init(&lock, omp_sync_hint_contended);
            init_nest(&nest, omp_sync_hint_speculative);
        }
        omp_set_lock(&lock);
        count++;
        omp_unset_lock(&lock);
        omp_set_nest_lock(&nest);
        nest_count++;
        omp_unset_nest_lock(&nest);
    }
    CHECK(count == asked() && nest_count == asked(), "%d, %d", count, nest_count);
    return told();
}
