// blas SIZE TIMES: multiplies square matrices of SIZE so often with OpenBLAS, and prints a sum of the result's bits.
#include <cblas.h>
#include <stdint.h>
#include <stdio.h>
#include <stdlib.h>
#include <string.h>

int main(int words, char **word)
{
    int size = words > 1 ? atoi(word[1]) : 400, times = words > 2 ? atoi(word[2]) : 20;
    size_t count = (size_t)size * (size_t)size;
    double *one = malloc(count * sizeof *one), *other = malloc(count * sizeof *other),
           *product = malloc(count * sizeof *product);
    uint64_t sum = 0;
    if (one == NULL || other == NULL || product == NULL)
        return 1;
    for (size_t i = 0; i < count; i++) {
        one[i] = (double)(i % 101) / 7;
        other[i] = (double)(i % 53) / 11;
    }
    for (int time = 0; time < times; time++) {
        cblas_dgemm(CblasRowMajor, CblasNoTrans, CblasNoTrans, size, size, size, 1 + time, one, size, other,
                    size, 0, product, size);
        for (size_t i = 0; i < count; i++) {
            uint64_t bits;
            memcpy(&bits, &product[i], sizeof bits);
            sum = sum * 31 + bits;
        }
    }
    printf("%016lx\n", sum);
    return 0;
}
