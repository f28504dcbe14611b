// A task never ends; the others wait for it.
#include "../check.h"

int main(void) {
#pragma omp parallel
    {
#pragma omp single
#pragma omp task
        pause();
    }
    return 1;
}
