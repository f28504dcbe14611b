// lastprivate(conditional:): the value of the last iteration that assigns one, of loops and sections; libgomp keeps memory for it.
// steps: loop dynamic 2, loop guided 1, sections 3
#include "../check.h"

int main(void) {
    for (int round = 0; round < 5; round++) {
        int dynamic = -1, guided = -1, section = -1, never = 77, stat = -1;
        long wide = -1;
#pragma omp parallel
        {
#pragma omp for schedule(dynamic, 2) lastprivate(conditional : dynamic)
            for (int i = 0; i < 100; i++)
                if (i % 7 == 3)
                    dynamic = i;
#pragma omp for schedule(guided) lastprivate(conditional : guided, never)
            for (int i = 0; i < 100; i++) {
                if (i < 40)
                    guided = i;
                if (i > 200)
                    never = i;
            }
#pragma omp for schedule(static, 3) lastprivate(conditional : stat)
            for (int i = 0; i < 100; i++)
                if (i < 60)
                    stat = i;
#pragma omp for schedule(dynamic, 2) lastprivate(conditional : wide)
            for (unsigned long long i = ULLONG_MAX - 50; i < ULLONG_MAX; i++)
                if (i < ULLONG_MAX - 10)
                    wide = (long)(ULLONG_MAX - i);
#pragma omp sections lastprivate(conditional : section)
            {
#pragma omp section
                section = 1;
#pragma omp section
                section = 2;
#pragma omp section
                usleep(100);
            }
        }
        CHECK(dynamic == 94 && guided == 39 && stat == 59, "%d %d %d", dynamic, guided, stat);
        CHECK(section == 2 && never == 77 && wide == 11, "%d %d %ld", section, never, wide);
    }
    return told();
}
