// Atomic updates: those that gcc makes itself, and those for which it calls GOMP_atomic_start, in a region and outside.
// steps: barrier|region_end
#include "../check.h"

int main(void) {
    int sum = 0, tickets[6400] = {0}, next = 0, most = 0, rounds = 6400 / asked();
    double real = 0;
    long double wide = 0;
#pragma omp atomic
    wide += 3;
#pragma omp parallel
    for (int k = 0; k < rounds; k++) {
        int ticket;
        long double read;
#pragma omp atomic
        sum += k;
#pragma omp atomic update
        real += 0.5;
#pragma omp atomic capture
        ticket = next++;
        COUNT(tickets[ticket]);
#pragma omp atomic
        wide += 0.25L;
#pragma omp atomic read
        read = wide;
        CHECK(read >= 3.25L, "it is %Lf", read);
#pragma omp atomic compare
        if (most < k) {
            most = k;
        }
    }
    int n = asked();
    check_each(tickets, rounds * n, 1, "ticket");
    CHECK(sum == n * (rounds * (rounds - 1) / 2), "%d", sum);
    CHECK(real == 0.5 * n * rounds && wide == 3 + 0.25L * n * rounds, "%f %Lf", real, wide);
    CHECK(most == rounds - 1, "%d", most);
    return told();
}
