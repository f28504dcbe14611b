// A constructor has a region before main.
// steps: region_end, loop dynamic 2
#include "../check.h"

static int done[10], members;

__attribute__((constructor)) static void begun(void) {
#pragma omp parallel
    {
        COUNT(members);
#pragma omp for schedule(dynamic, 2)
        for (int i = 0; i < 10; i++)
            COUNT(done[i]);
    }
}

int main(void) {
    check_each(done, 10, 1, "iteration");
    CHECK(members == asked(), "%d members", members);
    return told();
}
