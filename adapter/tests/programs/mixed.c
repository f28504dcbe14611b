// A computation that uses most constructs: a sieve, a prefix sum by turns, a table that a single makes.
// steps: loop dynamic 16, loop guided 4 ordered, sections 2, single, single_copy, barrier
#include "../check.h"

#define MOST 2000

int main(void) {
    static char composite[MOST];
    static long prefix[MOST / 20];
    int primes = 0, even = 0, odd = 0;
    long total = 0;
#pragma omp parallel
    {
        int root = 0;
#pragma omp single copyprivate(root)
        for (root = 1; root * root < MOST; root++)
            ;
#pragma omp single
        composite[0] = composite[1] = 1;
        for (int k = 2; k < 8; k++) {
#pragma omp for schedule(dynamic, 16) nowait
            for (int i = 2; i < MOST / 8; i++)
                if (k * i < MOST)
                    __atomic_store_n(&composite[k * i], 1, __ATOMIC_RELAXED);
        }
#pragma omp for schedule(dynamic, 16)
        for (int k = 2; k < root; k++)
            for (int i = k * k; i < MOST; i += k)
                __atomic_store_n(&composite[i], 1, __ATOMIC_RELAXED);
#pragma omp for schedule(guided, 4) ordered reduction(+ : primes)
        for (int block = 0; block < MOST / 20; block++) {
            long own = 0;
            for (int i = 20 * block; i < 20 * block + 20; i++)
                own += !composite[i];
            primes += own;
#pragma omp ordered
            {
                total += own;
                prefix[block] = total;
            }
        }
#pragma omp sections
        {
#pragma omp section
            for (int i = 0; i < MOST; i += 2)
                even += !composite[i];
#pragma omp section
            for (int i = 1; i < MOST; i += 2)
                odd += !composite[i];
        }
    }
    CHECK(primes == 303 && total == 303, "%d primes, %ld", primes, total);
    CHECK(even == 1 && odd == 302, "%d even, %d odd", even, odd);
    CHECK(prefix[4] == 25 && prefix[MOST / 20 - 1] == 303, "%ld %ld", prefix[4], prefix[MOST / 20 - 1]);
    return told();
}
