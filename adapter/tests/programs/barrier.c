// Many barriers: no member passes one before all have arrived.
// steps: barrier
#include "../check.h"

int main(void) {
    int rounds = 15 + 300 / asked(), arrived = 0;
#pragma omp parallel
    for (int round = 1; round <= rounds; round++) {
        COUNT(arrived);
#pragma omp barrier
        int seen = __atomic_load_n(&arrived, __ATOMIC_SEQ_CST);
        CHECK(seen >= round * omp_get_num_threads(), "round %d: %d have arrived", round, seen);
#pragma omp barrier
    }
    CHECK(arrived == rounds * asked(), "%d", arrived);
    return told();
}
