// GOMP_loop_doacross_dynamic_start: a loop whose iterations depend on each other, ordered(1).
#include "../check.h"

int main(void) {
    int value[20] = {0};
#pragma omp parallel
    {
#pragma omp for ordered(1) schedule(dynamic)
        for (int i = 1; i < 20; i++) {
#pragma omp ordered depend(sink : i - 1)
            value[i] = value[i - 1] + 1;
#pragma omp ordered depend(source)
        }
    }
    CHECK(value[19] == 19, "%d", value[19]);
    return told();
}
