// A search: who finds what is sought cancels the region, and the others leave at their next cancellation point. With and without
// cancellation the result is the same.
// environment: OMP_CANCELLATION=true
// environment: OMP_CANCELLATION=false
// environment:
// steps: point parallel|cancel parallel, region_end
#include "../check.h"

#define SIZE 3000

static int values[SIZE];

static int find(int sought) {
    int found = -1, looked = 0;
#pragma omp parallel
    {
        int members = omp_get_num_threads(), member = omp_get_thread_num();
        for (int at = member; at < SIZE; at += members) {
            bool is_here = values[at] == sought;
            COUNT(looked);
            if (is_here) {
#pragma omp atomic write
                found = at;
#pragma omp cancel parallel
            }
            if (at / members % 16 == 0) {
#pragma omp cancellation point parallel
            }
        }
    }
    CHECK(looked > 0 && looked <= SIZE, "%d", looked);
    CHECK(omp_get_cancellation() || looked == SIZE, "only %d were looked at", looked);
    CHECK(found >= 0 || looked == SIZE, "only %d were looked at", looked);
    return found;
}

int main(void) {
    for (int k = 0; k < SIZE; k++)
        values[k] = k * 7 % SIZE; // each number below SIZE once
    for (int k = 0; k < 6; k++) {
        int sought = k * 499, found = find(sought);
        CHECK(found >= 0 && values[found] == sought, "%d is not at %d", sought, found);
    }
    CHECK(find(SIZE) == -1, "what is not there was found");
    return told();
}
