// E29 NameTooLong: a critical region with a name of 33 characters.
// words: #pragma omp critical (a_name_that_has_33_characters_abc)
// limit: yes
#include "../check.h"

int main(void) {
    int count = 0;
#pragma omp parallel
    {
#pragma omp critical(a_name_that_has_33_characters_abc)
        count++;
    }
    CHECK(count == asked(), "%d", count);
    return told();
}
