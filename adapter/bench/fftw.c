// fftw SIZE TIMES: transforms a square of SIZE by SIZE numbers so often with FFTW's OpenMP library, and prints a sum of the result's bits.
#include <fftw3.h>
#include <omp.h>
#include <stdint.h>
#include <stdio.h>
#include <stdlib.h>
#include <string.h>

int main(int words, char **word)
{
    int size = words > 1 ? atoi(word[1]) : 512, times = words > 2 ? atoi(word[2]) : 20;
    size_t count = (size_t)size * (size_t)size;
    fftw_complex *numbers = fftw_alloc_complex(count);
    fftw_init_threads();
    fftw_plan_with_nthreads(omp_get_max_threads());
    fftw_plan plan = fftw_plan_dft_2d(size, size, numbers, numbers, FFTW_FORWARD, FFTW_ESTIMATE);
    uint64_t sum = 0;
    for (int time = 0; time < times; time++) {
        for (size_t i = 0; i < count; i++) {
            numbers[i][0] = (double)(i % 101) / 7;
            numbers[i][1] = (double)(i % 53) / 11;
        }
        fftw_execute(plan);
        for (size_t i = 0; i < count; i++) {
            uint64_t bits[2];
            memcpy(bits, numbers[i], sizeof bits);
            sum = sum * 31 + bits[0] + bits[1];
        }
    }
    printf("%016lx\n", sum);
    return 0;
}
