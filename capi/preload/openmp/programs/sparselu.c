/* sparselu.c BLOCKS SIDE: the LU factors of a matrix of blocks, many of them empty, with a task for each operation on a block and
 * depend clauses, and compares them with those of a loop. */
#include <stdio.h>
#include <stdlib.h>
#include <string.h>

static int n, s;
typedef double *matrix[64][64];

static double *block(int i, int j) {
    double *at = calloc((size_t)(s * s), sizeof *at);
    for (int k = 0; at && k < s * s; k++) at[k] = (i * 7 + j * 3 + k) % 13 + (i == j && k / s == k % s ? 100.0 * s : 0);
    return at;
}
static void fill(matrix m) {
    for (int i = 0; i < n; i++)
        for (int j = 0; j < n; j++) m[i][j] = i == j || (i + j) % 3 == 0 ? block(i, j) : NULL;
}
static void factor(double *d) {
    for (int k = 0; k < s; k++)
        for (int i = k + 1; i < s; i++) {
            d[i * s + k] /= d[k * s + k];
            for (int j = k + 1; j < s; j++) d[i * s + j] -= d[i * s + k] * d[k * s + j];
        }
}
static void lower(const double *d, double *b) { /* b = L^-1 b */
    for (int k = 0; k < s; k++)
        for (int i = k + 1; i < s; i++)
            for (int j = 0; j < s; j++) b[i * s + j] -= d[i * s + k] * b[k * s + j];
}
static void upper(const double *d, double *b) { /* b = b U^-1 */
    for (int i = 0; i < s; i++)
        for (int k = 0; k < s; k++) {
            b[i * s + k] /= d[k * s + k];
            for (int j = k + 1; j < s; j++) b[i * s + j] -= b[i * s + k] * d[k * s + j];
        }
}
static void update(const double *a, const double *b, double *c) {
    for (int i = 0; i < s; i++)
        for (int k = 0; k < s; k++)
            for (int j = 0; j < s; j++) c[i * s + j] -= a[i * s + k] * b[k * s + j];
}

static void decompose(matrix m) {
    for (int k = 0; k < n; k++) {
        double *d = m[k][k];
#pragma omp task depend(inout : d[0])
        factor(d);
        for (int j = k + 1; j < n; j++) {
            double *right = m[k][j], *below = m[j][k];
            if (right) {
#pragma omp task depend(in : d[0]) depend(inout : right[0])
                lower(d, right);
            }
            if (below) {
#pragma omp task depend(in : d[0]) depend(inout : below[0])
                upper(d, below);
            }
        }
        for (int i = k + 1; i < n; i++)
            for (int j = k + 1; j < n; j++) {
                double *left = m[i][k], *above = m[k][j];
                if (!left || !above) continue;
                if (!m[i][j]) m[i][j] = calloc((size_t)(s * s), sizeof(double));
                double *c = m[i][j];
#pragma omp task depend(in : left[0], above[0]) depend(inout : c[0])
                update(left, above, c);
            }
    }
}

int main(int count, char **arguments) {
    static matrix first, second;
    n = count > 1 ? atoi(arguments[1]) : 12, s = count > 2 ? atoi(arguments[2]) : 24;
    if (n > 64) return 2;
    fill(first), fill(second);
#pragma omp parallel
#pragma omp single
    decompose(first);
    decompose(second); /* outside of the region: one after the other */
    int wrong = 0;
    for (int i = 0; i < n * n; i++) {
        const double *a = first[i / n][i % n], *b = second[i / n][i % n];
        if (a) wrong += memcmp(a, b, (size_t)(s * s) * sizeof *a) != 0;
    }
    printf("%s\n", wrong ? "WRONG" : "decomposed");
    return wrong != 0;
}
