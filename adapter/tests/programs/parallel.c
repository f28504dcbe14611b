// A region: each member executes it once, with its own number, private copies and the shared variables.
// steps: region_end
#include "../check.h"

int main(void) {
    int counts[64] = {0}, shared = 7, copied = 5, own = 3;
#pragma omp parallel default(none) shared(counts, shared, failures, stdout) firstprivate(copied) private(own)
    {
        own = omp_get_thread_num();
        CHECK(omp_get_num_threads() == asked(), "%d members", omp_get_num_threads());
        CHECK(copied == 5, "it is %d", copied);
        CHECK(shared >= 7, "it is %d", shared);
        copied += own;
        COUNT(counts[own]);
        CHECK(copied == 5 + omp_get_thread_num(), "it is %d", copied);
#pragma omp atomic
        shared += own;
    }
    check_each(counts, asked(), 1, "member");
    int sum = asked() * (asked() - 1) / 2;
    CHECK(shared == 7 + sum, "it is %d", shared);
    CHECK(copied == 5 && own == 3, "they are %d and %d", copied, own);
    CHECK(omp_get_num_threads() == 1 && omp_get_thread_num() == 0, "outside of the region");
    return told();
}
