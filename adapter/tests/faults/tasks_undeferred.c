// A task that is executed at once, in a region of one thread.
#include "../check.h"

int main(void) {
    int count = 0;
#pragma omp parallel num_threads(1)
    {
#pragma omp task if (0)
        count++;
    }
    return count != 1;
}
