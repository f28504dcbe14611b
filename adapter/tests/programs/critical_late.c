// A member that holds a name for a while: the others sleep until it is free, and each of them gets it once.
// steps: critical late, resume
#include "../check.h"

int main(void) {
    int count = 0, alone = 0;
#pragma omp parallel
    {
        if (omp_get_thread_num() == 0) {
#pragma omp critical(late)
            {
                usleep(50000);
                alone = count;
            }
        } else {
            usleep(5000);
#pragma omp critical(late)
            count++;
        }
#pragma omp barrier
    }
    CHECK(count == asked() - 1, "%d", count);
    CHECK(alone <= count, "%d", alone);
    return told();
}
