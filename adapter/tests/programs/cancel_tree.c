// A search in a tree of tasks: who finds what is sought cancels the taskgroup. Tasks in it whose own creator has ended, undeferred
// ones and final ones are in it too. With and without cancellation the result is the same.
// environment: OMP_CANCELLATION=true
// environment:
// steps: cancel taskgroup 1, task if0, task final, group, group_end
#include "../check.h"

#define DEPTH 7

static int looked, twice[1 << (DEPTH + 1)];

static void search(int node, int depth, int sought, int *found) {
    COUNT(looked);
    COUNT(twice[node]);
    if (node == sought) {
#pragma omp atomic write
        *found = node;
    } else if (depth < DEPTH) {
        for (int side = 0; side < 2; side++)
#pragma omp task if (depth != 2) final(depth == DEPTH - 1)
        {
            search(node * 2 + side, depth + 1, sought, found);
            if (__atomic_load_n(found, __ATOMIC_SEQ_CST) == sought) {
#pragma omp cancel taskgroup
            }
        }
    }
}

static int find(int sought) {
    int found = 0;
#pragma omp parallel
    {
#pragma omp single
        {
#pragma omp taskgroup
            {
#pragma omp task shared(found)
                search(1, 0, sought, &found);
            }
        }
    }
    for (int node = 1; node < 1 << (DEPTH + 1); node++) {
        CHECK(twice[node] <= 1, "node %d was looked at %d times", node, twice[node]);
        CHECK(found || twice[node] == 1, "node %d was left out, and nothing was found", node);
        CHECK(omp_get_cancellation() || sought == 0 || twice[node] == 1 || node / 2 >= sought, "node %d was left out", node);
        twice[node] = 0;
    }
    return found;
}

int main(void) {
    for (int k = 1; k < 1 << (DEPTH + 1); k += 37)
        CHECK(find(k) == k, "%d was not found", k);
    CHECK(find(1 << (DEPTH + 1)) == 0, "what is not there was found");
    return told();
}
