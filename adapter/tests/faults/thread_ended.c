// A member ends its thread in the region, and the others wait at the region's end.
#include "../check.h"
#include <pthread.h>

int main(void) {
#pragma omp parallel
    {
        if (omp_get_thread_num() == 1)
            pthread_exit(NULL);
    }
    return told();
}
