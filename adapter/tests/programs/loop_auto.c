// Loops of the schedule auto, with the ordered clause and without.
// steps: loop static 0 ordered, ordered, barrier
#include "../check.h"

int main(void) {
    int done[200] = {0}, turn = 0;
#pragma omp parallel
    {
#pragma omp for schedule(auto)
        for (int i = 0; i < 200; i++)
            COUNT(done[i]);
#pragma omp for schedule(auto) ordered
        for (int i = 0; i < 200; i++) {
            COUNT(done[i]);
#pragma omp ordered
            {
                CHECK(turn == i, "iteration %d, turn %d", i, turn);
                turn++;
            }
        }
    }
    check_each(done, 200, 2, "iteration");
    CHECK(turn == 200, "%d", turn);
    return told();
}
