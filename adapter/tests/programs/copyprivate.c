// Singles with copyprivate: each member has the executor's values, of a number, an array, a record and a pointer, many in a row.
// steps: single_copy, single_copy_end, barrier
#include "../check.h"

struct record {
    double weight;
    char name[24];
};

static int own;
#pragma omp threadprivate(own)

int main(void) {
    int executors = 0;
#pragma omp parallel
    {
        for (int round = 0; round < 10; round++) {
            int number = -1, table[5] = {0};
            struct record record = {0, ""};
            int *pointer = NULL;
#pragma omp single copyprivate(number, table, record, pointer, own)
            {
                COUNT(executors);
                number = round;
                for (int k = 0; k < 5; k++)
                    table[k] = round * k;
                record.weight = round / 4.0;
                snprintf(record.name, sizeof record.name, "round %d", round);
                pointer = &executors;
                own = 1000 + round;
            }
            CHECK(number == round && own == 1000 + round, "round %d: %d %d", round, number, own);
            for (int k = 0; k < 5; k++)
                CHECK(table[k] == round * k, "round %d: %d", round, table[k]);
            CHECK(record.weight == round / 4.0 && atoi(record.name + 6) == round, "round %d: %s", round, record.name);
            CHECK(pointer == &executors, "round %d: %p", round, (void *)pointer);
        }
    }
    CHECK(executors == 10, "%d", executors);
    return told();
}
