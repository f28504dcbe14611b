// GOMP_teams_reg: teams.
#include "../check.h"

int main(void) {
    int count = 0;
#pragma omp teams num_teams(2)
    COUNT(count);
    CHECK(count == 2, "%d", count);
    return told();
}
