// A region is cancelled while others are in its singles and sections, or leave a single with copyprivate that all have met: each
// body is executed once at most, and none passes the barriers behind.
// environment: OMP_CANCELLATION=true
// steps: cancel parallel 1, single, single_copy, sections 3, section_next
#include "../check.h"

static int executed, passed, words, sections[3];

int main(void) {
    for (int round = 0; round < 20; round++) {
        executed = passed = words = 0;
#pragma omp parallel
        {
            int word = 0;
#pragma omp single copyprivate(word)
            word = round + 1;
            if (word == round + 1)
                COUNT(words);
            if (omp_get_thread_num() == round % omp_get_num_threads()) {
                usleep(100 * (round % 3));
#pragma omp cancel parallel
                COUNT(passed);
            }
#pragma omp single nowait
            COUNT(executed);
#pragma omp sections nowait
            {
#pragma omp section
                COUNT(sections[0]);
#pragma omp section
                COUNT(sections[1]);
#pragma omp section
                COUNT(sections[2]);
            }
            if (round % 2) {
#pragma omp sections
                {
#pragma omp section
                    COUNT(sections[0]);
#pragma omp section
                    COUNT(sections[1]);
                }
            } else {
#pragma omp single
                COUNT(executed);
            }
            COUNT(passed);
        }
        CHECK(words >= 1 && words <= asked(), "%d have the word", words); // the barrier behind may be cut short too
        CHECK(executed <= 1 + (round % 2 == 0) && passed == 0, "round %d: %d executed, %d passed", round, executed, passed);
        for (int k = 0; k < 3; k++) {
            CHECK(sections[k] <= 1 + (round % 2 && k < 2), "round %d: section %d was executed %d times", round, k, sections[k]);
            sections[k] = 0;
        }
    }
    return told();
}
