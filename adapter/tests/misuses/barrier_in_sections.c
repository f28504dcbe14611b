// E8 InsideShare: a barrier in a section, reached through a function.
// words: #pragma omp barrier
#include "../check.h"

__attribute__((noinline)) static void meet(void) {
#pragma omp barrier
}

int main(void) {
    int done[2] = {0};
#pragma omp parallel
    {
#pragma omp sections
        {
#pragma omp section
            COUNT(done[0]);
#pragma omp section
            {
                meet();
                COUNT(done[1]);
            }
        }
    }
    check_each(done, 2, 1, "section");
    return told();
}
