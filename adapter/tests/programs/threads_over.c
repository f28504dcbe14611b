// More members than Dillbeam's 64 are asked for: the team is cut to 64, and each iteration is done once.
// threads: 100
// steps: loop dynamic 2
// notes: may
#include "../check.h"

int main(void) {
    int done[300] = {0}, members = 0, told_members = 0;
#pragma omp parallel
    {
        COUNT(members);
#pragma omp single
        told_members = omp_get_num_threads();
#pragma omp for schedule(dynamic, 2)
        for (int i = 0; i < 300; i++)
            COUNT(done[i]);
    }
    check_each(done, 300, 1, "iteration");
    CHECK(members == told_members, "%d, %d", members, told_members);
    CHECK(members == 64 || getenv("PLAIN"), "%d members", members);
#pragma omp parallel num_threads(1000)
    { CHECK(omp_get_num_threads() == 64 || getenv("PLAIN"), "%d members", omp_get_num_threads()); }
    return told();
}
