// The program's own words, standard input and output are its own; so is its status.
// threads: 4
// status: 3
// words: one 'two words' --record --timeout ''
// in: 17 25
// out: 5 one|two words|--record|--timeout|| 42
// steps: region_end
#include "../check.h"

int main(int count, char **words) {
    int first = 0, second = 0, sum = 0;
    if (scanf("%d %d", &first, &second) != 2)
        return 1;
    printf("%d ", count - 1);
    for (int k = 1; k < count; k++)
        printf("%s|", words[k]);
#pragma omp parallel
    {
#pragma omp single
        sum = first + second;
    }
    printf(" %d\n", sum);
    return 3;
}
