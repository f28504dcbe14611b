// A member sleeps for ever outside of the team, and the others wait at a barrier.
#include "../check.h"

int main(void) {
#pragma omp parallel
    {
        if (omp_get_thread_num() == 1)
            pause();
#pragma omp barrier
    }
    return told();
}
