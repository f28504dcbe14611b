// The member whose ordered part is next sleeps for ever; the others wait for their turn.
#include "../check.h"

int main(void) {
#pragma omp parallel
    {
#pragma omp for schedule(static, 1) ordered
        for (int i = 0; i < omp_get_num_threads(); i++) {
            if (i == 0)
                pause();
#pragma omp ordered
            CHECK(i >= 0, "%d", i);
        }
    }
    return told();
}
