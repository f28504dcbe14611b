// A matrix of 8 x 8 blocks of 16 x 16 numbers is factorised by tasks that depend on one another's blocks, and has the very
// numbers of the factorisation by one thread, since the same operations are done in the same order on each block.
// flags: -Wl,--no-as-needed -lm
// steps: task inout, task inout in, task_end
#include "../check.h"
#include <math.h>

enum { BLOCKS = 8, SIDE = 16, LENGTH = BLOCKS * SIDE };

typedef double block[SIDE][SIDE];
static block tasks[BLOCKS][BLOCKS], serial[BLOCKS][BLOCKS];

static void potrf(block a) {
    for (int k = 0; k < SIDE; k++) {
        a[k][k] = sqrt(a[k][k]);
        for (int i = k + 1; i < SIDE; i++)
            a[i][k] /= a[k][k];
        for (int j = k + 1; j < SIDE; j++)
            for (int i = j; i < SIDE; i++)
                a[i][j] -= a[i][k] * a[j][k];
    }
}

static void trsm(block of, block a) {
    for (int k = 0; k < SIDE; k++)
        for (int i = 0; i < SIDE; i++) {
            for (int j = 0; j < k; j++)
                a[i][k] -= a[i][j] * of[k][j];
            a[i][k] /= of[k][k];
        }
}

static void gemm(block left, block right, block a) {
    for (int i = 0; i < SIDE; i++)
        for (int j = 0; j < SIDE; j++)
            for (int k = 0; k < SIDE; k++)
                a[i][j] -= left[i][k] * right[j][k];
}

static void syrk(block of, block a) {
    gemm(of, of, a);
}

static void fill(block a[BLOCKS][BLOCKS]) {
    for (int i = 0; i < LENGTH; i++)
        for (int j = 0; j < LENGTH; j++)
            a[i / SIDE][j / SIDE][i % SIDE][j % SIDE] = i == j ? LENGTH + i : 1.0 / (1 + i + j);
}

static void factorise_serially(block a[BLOCKS][BLOCKS]) {
    for (int k = 0; k < BLOCKS; k++) {
        potrf(a[k][k]);
        for (int i = k + 1; i < BLOCKS; i++)
            trsm(a[k][k], a[i][k]);
        for (int i = k + 1; i < BLOCKS; i++) {
            for (int j = k + 1; j < i; j++)
                gemm(a[i][k], a[j][k], a[i][j]);
            syrk(a[i][k], a[i][i]);
        }
    }
}

static void factorise_by_tasks(block a[BLOCKS][BLOCKS]) {
    for (int k = 0; k < BLOCKS; k++) {
#pragma omp task depend(inout : a[k][k]) firstprivate(k)
        potrf(a[k][k]);
        for (int i = k + 1; i < BLOCKS; i++)
#pragma omp task depend(in : a[k][k]) depend(inout : a[i][k]) firstprivate(i, k)
            trsm(a[k][k], a[i][k]);
        for (int i = k + 1; i < BLOCKS; i++) {
            for (int j = k + 1; j < i; j++)
#pragma omp task depend(in : a[i][k], a[j][k]) depend(inout : a[i][j]) firstprivate(i, j, k)
                gemm(a[i][k], a[j][k], a[i][j]);
#pragma omp task depend(in : a[i][k]) depend(inout : a[i][i]) firstprivate(i, k)
            syrk(a[i][k], a[i][i]);
        }
    }
}

int main(void) {
    fill(tasks);
    fill(serial);
    factorise_serially(serial);
#pragma omp parallel
#pragma omp single
    factorise_by_tasks(tasks);
    CHECK(memcmp(tasks, serial, sizeof tasks) == 0, "the numbers differ");
    double most = 0;
    for (int i = 0; i < LENGTH; i++)
        for (int j = 0; j <= i; j++) {
            double sum = 0, wanted = i == j ? LENGTH + i : 1.0 / (1 + i + j);
            for (int k = 0; k <= j; k++)
                sum += serial[i / SIDE][k / SIDE][i % SIDE][k % SIDE] * serial[j / SIDE][k / SIDE][j % SIDE][k % SIDE];
            most = fmax(most, fabs(sum - wanted));
        }
    CHECK(most < 1e-9, "the product is off by %g", most);
    return told();
}
