// A region is cancelled while others are in a single with copyprivate: its body is executed once at most, who goes on has its
// words, and these stand until all have them; none passes its barrier. libgomp 12 hangs, since its members wait there for all.
// environment: OMP_CANCELLATION=true
// steps: cancel parallel 1, single_copy, single_copy_end
#include "../check.h"

#define WORDS 64

struct words {
    long of[WORDS];
};

// At the end of a member's part: its words are whole, or it has none. They are spoilt then, for those who would copy them still.
static void spoil(struct words *words) {
    for (int k = 1; k < WORDS; k++)
        CHECK(words->of[k] == (words->of[0] ? words->of[0] + k : 0), "word %d is %ld", k, words->of[k]);
    for (int k = 0; k < WORDS; k++)
        words->of[k] = -1 - k;
}

static long marks[WORDS]; // each member's own, which stand after the region
#pragma omp threadprivate(marks)

int main(void) {
    for (int round = 1; round < 20; round++) {
        int executed = 0, passed = 0;
#pragma omp parallel
        {
            struct words words __attribute__((cleanup(spoil))) = {{0}};
            int copied = 0;
            if (omp_get_thread_num() == round % omp_get_num_threads()) {
                usleep(100 * (round % 4));
#pragma omp cancel parallel
                COUNT(passed);
            }
            if (round % 3 == 0)
                usleep(40 * omp_get_thread_num());
#pragma omp single copyprivate(words, copied, marks)
            {
                COUNT(executed);
                usleep(round % 2 ? 200 : 0);
                for (int k = 0; k < WORDS; k++)
                    marks[k] = words.of[k] = round + k;
                copied = 1;
            }
            COUNT(passed);
            CHECK(copied == 1 && words.of[WORDS - 1] == round + WORDS - 1, "%d", copied);
        }
        CHECK(executed <= 1 && passed == 0, "%d executed it, %d passed", executed, passed);
#pragma omp parallel
        {
            bool is_new = marks[0] == round;
            for (int k = 0; k < WORDS; k++) {
                CHECK(marks[k] == (is_new ? round + k : 0), "round %d: word %d is %ld", round, k, marks[k]);
                marks[k] = 0;
            }
        }
    }
    return told();
}
