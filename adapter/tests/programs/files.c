// A program that opens and closes many files, and closes its standard input: the engines' pipes are not among them.
// steps: region_end, loop dynamic 1
#include "../check.h"
#include <fcntl.h>

int main(void) {
    close(0);
    int open_ones[50], done[20] = {0};
    for (int round = 0; round < 5; round++) {
        for (int k = 0; k < 50; k++)
            open_ones[k] = open("/dev/null", O_RDWR);
#pragma omp parallel for schedule(dynamic)
        for (int i = 0; i < 20; i++)
            COUNT(done[i]);
        for (int k = 0; k < 50; k++)
            CHECK(open_ones[k] >= 0 && close(open_ones[k]) == 0, "file %d", open_ones[k]);
    }
    check_each(done, 20, 5, "iteration");
    return told();
}
