// Thirty loops, sections and singles in a row without a barrier; one member comes late, and the others may be far ahead.
// steps: loop dynamic 1, loop guided 2, sections 2, single, end_nowait, sections_end_nowait
#include "../check.h"

#define ROUNDS 10

int main(void) {
    int dynamic[ROUNDS][6] = {{0}}, guided[ROUNDS][9] = {{0}}, sections[ROUNDS][2] = {{0}}, singles[ROUNDS] = {0};
    for (int late = 0; late < 2; late++) {
#pragma omp parallel
        for (int round = 0; round < ROUNDS; round++) {
            if (omp_get_thread_num() == late * (omp_get_num_threads() - 1) && round % 5 == 0)
                usleep(20000);
#pragma omp for schedule(dynamic) nowait
            for (int i = 0; i < 6; i++)
                COUNT(dynamic[round][i]);
#pragma omp for schedule(guided, 2) nowait
            for (int i = 0; i < 9; i++)
                COUNT(guided[round][i]);
#pragma omp sections nowait
            {
#pragma omp section
                COUNT(sections[round][0]);
#pragma omp section
                COUNT(sections[round][1]);
            }
#pragma omp single nowait
            COUNT(singles[round]);
        }
    }
    check_each(&dynamic[0][0], ROUNDS * 6, 2, "dynamic iteration");
    check_each(&guided[0][0], ROUNDS * 9, 2, "guided iteration");
    check_each(&sections[0][0], ROUNDS * 2, 2, "section");
    check_each(singles, ROUNDS, 2, "single");
    return told();
}
