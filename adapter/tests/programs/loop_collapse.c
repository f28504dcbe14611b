// Nested loops as one: collapse(2) and (3), of each schedule, with ordered parts, and with a triangle.
// steps: loop dynamic 4, loop guided 1, ordered, next
#include "../check.h"

int main(void) {
    int two[12][11] = {{0}}, three[5][6][7] = {{{0}}}, triangle[15][15] = {{0}}, turn = 0;
#pragma omp parallel
    {
#pragma omp for collapse(2) schedule(dynamic, 4)
        for (int i = 0; i < 12; i++)
            for (int k = 0; k < 11; k++)
                COUNT(two[i][k]);
#pragma omp for collapse(3) schedule(guided) nowait
        for (int i = 4; i >= 0; i--)
            for (int k = 0; k < 6; k++)
                for (unsigned m = 0; m < 7; m++)
                    COUNT(three[i][k][m]);
#pragma omp for collapse(2) schedule(dynamic, 3) ordered
        for (int i = 0; i < 12; i++)
            for (int k = 0; k < 11; k++) {
                COUNT(two[i][k]);
#pragma omp ordered
                {
                    CHECK(turn == i * 11 + k, "iteration %d %d, turn %d", i, k, turn);
                    turn++;
                }
            }
#pragma omp for collapse(2)
        for (int i = 0; i < 15; i++)
            for (int k = i; k < 15; k++)
                COUNT(triangle[i][k]);
    }
    check_each(&two[0][0], 12 * 11, 2, "iteration of two loops");
    check_each(&three[0][0][0], 5 * 6 * 7, 1, "iteration of three loops");
    for (int i = 0; i < 15; i++)
        for (int k = 0; k < 15; k++)
            CHECK(triangle[i][k] == (k >= i), "%d %d: %d times", i, k, triangle[i][k]);
    CHECK(turn == 12 * 11, "%d", turn);
    return told();
}
