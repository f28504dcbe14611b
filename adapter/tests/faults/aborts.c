// A program that ends by a signal in a region.
#include "../check.h"

int main(void) {
#pragma omp parallel
    {
        if (omp_get_thread_num() == omp_get_num_threads() - 1)
            abort();
#pragma omp barrier
    }
    return told();
}
