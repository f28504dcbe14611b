// Static loops with the ordered clause, with a chunk and without: gcc asks for their chunks.
// steps: loop static 3 ordered, loop static 0 ordered, ordered, next
#include "../check.h"

#define ITERATIONS 130

int main(void) {
    int owner[ITERATIONS], done[ITERATIONS] = {0}, turn = 0, other = 0, n = asked();
#pragma omp parallel
    {
#pragma omp for ordered schedule(static, 3)
        for (int i = 0; i < ITERATIONS; i++) {
            owner[i] = omp_get_thread_num();
#pragma omp ordered
            {
                CHECK(turn == i, "iteration %d, turn %d", i, turn);
                turn++;
            }
        }
#pragma omp for ordered schedule(static)
        for (int i = 0; i < ITERATIONS; i++) {
            COUNT(done[i]);
#pragma omp ordered
            {
                CHECK(other == i, "iteration %d, turn %d", i, other);
                other++;
            }
        }
    }
    for (int i = 0; i < ITERATIONS; i++)
        CHECK(owner[i] == i / 3 % n, "iteration %d is member %d's", i, owner[i]);
    check_each(done, ITERATIONS, 1, "iteration");
    CHECK(turn == ITERATIONS && other == ITERATIONS, "%d %d", turn, other);
    return told();
}
