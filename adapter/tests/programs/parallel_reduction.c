// Reductions of a region: each operator, an array, and a long double, which gcc guards by GOMP_atomic_start.
// steps: region_end
#include "../check.h"

int main(void) {
    int n = asked();
    long sum = 10, product = 1, least = 1000, most = -1000, all = -1, any = 0, either = 0;
    bool both = true, one = false;
    long double wide = 0.5L;
    int table[3] = {1, 2, 3};
#pragma omp parallel reduction(+ : sum, wide, table) reduction(* : product) reduction(min : least) reduction(max : most) \
    reduction(& : all) reduction(| : any) reduction(^ : either) reduction(&& : both) reduction(|| : one)
    {
        int me = omp_get_thread_num();
        sum += me;
        wide += me;
        table[0] += me, table[1] += 1, table[2] += 2 * me;
        product *= me == 0 ? 3 : 1;
        least = me, most = me;
        all &= ~(1L << (me % 60));
        any |= 1L << (me % 60);
        either ^= 1;
        both = both && me >= 0;
        one = one || me == n - 1;
    }
    long numbers = (long)n * (n - 1) / 2;
    long bits = n >= 60 ? (1L << 60) - 1 : (1L << n) - 1;
    CHECK(sum == 10 + numbers, "%ld", sum);
    CHECK(wide == 0.5L + numbers, "%Lf", wide);
    CHECK(table[0] == 1 + numbers && table[1] == 2 + n && table[2] == 3 + 2 * numbers, "%d %d %d", table[0], table[1], table[2]);
    CHECK(product == 3, "%ld", product);
    CHECK(least == 0 && most == n - 1, "%ld %ld", least, most);
    CHECK(all == ~bits && any == bits && either == n % 2, "%lx %lx %ld", all, any, either);
    CHECK(both && one, "%d %d", both, one);
    return told();
}
