// Each half second something moves, for two seconds in all: no deadlock.
#include "../check.h"

int main(void) {
#pragma omp parallel
    for (int round = 0; round < 4; round++) {
        if (omp_get_thread_num() == 0)
            usleep(500000);
#pragma omp barrier
    }
    return told();
}
