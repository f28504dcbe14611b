// #pragma omp task with a detach clause: a task that an event completes.
#include "../check.h"

int main(void) {
    int count = 0;
    omp_event_handle_t event;
#pragma omp parallel
    {
#pragma omp single
        {
#pragma omp task detach(event)
            COUNT(count);
#pragma omp task
            omp_fulfill_event(event);
        }
    }
    CHECK(count == 1, "%d", count);
    return told();
}
