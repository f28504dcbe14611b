// master, masked with a filter, and flush; none of them is a call to the runtime but for the member's number.
// steps: barrier, region_end
#include "../check.h"

int main(void) {
    int masters = 0, filtered = 0, ready = 0, payload = 0, n = asked(), seen = 0;
#pragma omp parallel
    {
#pragma omp master
        {
            CHECK(omp_get_thread_num() == 0, "member %d", omp_get_thread_num());
            COUNT(masters);
        }
#pragma omp masked filter(n - 1)
        {
            CHECK(omp_get_thread_num() == n - 1, "member %d", omp_get_thread_num());
            COUNT(filtered);
        }
#pragma omp barrier
        if (omp_get_thread_num() == 0) {
            payload = 77;
#pragma omp flush
#pragma omp atomic write
            ready = 1;
        }
        int is_ready = 0;
        while (!is_ready) {
#pragma omp atomic read
            is_ready = ready;
            if (!is_ready)
                usleep(100);
        }
#pragma omp flush(payload)
        CHECK(payload == 77, "it is %d", payload);
        COUNT(seen);
    }
    CHECK(masters == 1 && filtered == 1 && seen == n, "%d %d %d", masters, filtered, seen);
    return told();
}
