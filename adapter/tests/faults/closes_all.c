// A program that closes each file from 3 on between two regions, the engines' pipes too.
#include "../check.h"

static void region(void) {
    int members = 0;
#pragma omp parallel
    COUNT(members);
    CHECK(members == asked(), "%d members", members);
}

int main(void) {
    region();
    for (int file = 3; file < 1024; file++)
        close(file);
    region();
    return told();
}
