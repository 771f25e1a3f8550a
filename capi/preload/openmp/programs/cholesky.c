/* cholesky.c TILES SIDE: factors a matrix of TILES by TILES tiles of SIDE by SIDE numbers, with depend clauses, and compares the
 * product of the factors with the matrix. */
#include <math.h>
#include <stdio.h>
#include <stdlib.h>

static int n, s;
static double *tile(double *a, int i, int j) { return a + ((size_t)i * (size_t)n + (size_t)j) * (size_t)(s * s); }
static double entry(int p, int q) { return p == q ? n * s + 1.0 : 1.0 / (1 + abs(p - q)); }

static void factor(double *a) {
    for (int k = 0; k < s; k++) {
        a[k * s + k] = sqrt(a[k * s + k]);
        for (int i = k + 1; i < s; i++) a[i * s + k] /= a[k * s + k];
        for (int j = k + 1; j < s; j++)
            for (int i = j; i < s; i++) a[i * s + j] -= a[i * s + k] * a[j * s + k];
    }
}
static void solve(const double *l, double *b) {
    for (int i = 0; i < s; i++)
        for (int k = 0; k < s; k++) {
            double x = b[i * s + k];
            for (int m = 0; m < k; m++) x -= b[i * s + m] * l[k * s + m];
            b[i * s + k] = x / l[k * s + k];
        }
}
static void update(const double *a, const double *b, double *c) {
    for (int i = 0; i < s; i++)
        for (int j = 0; j < s; j++)
            for (int k = 0; k < s; k++) c[i * s + j] -= a[i * s + k] * b[j * s + k];
}

static void cholesky(double *a) {
    for (int k = 0; k < n; k++) {
        double *d = tile(a, k, k);
#pragma omp task depend(inout : d[0])
        factor(d);
        for (int i = k + 1; i < n; i++) {
            double *b = tile(a, i, k);
#pragma omp task depend(in : d[0]) depend(inout : b[0])
            solve(d, b);
        }
        for (int i = k + 1; i < n; i++)
            for (int j = k + 1; j <= i; j++) {
                double *x = tile(a, i, k), *y = tile(a, j, k), *z = tile(a, i, j);
#pragma omp task depend(in : x[0], y[0]) depend(inout : z[0])
                update(x, y, z);
            }
    }
}

int main(int count, char **arguments) {
    n = count > 1 ? atoi(arguments[1]) : 8, s = count > 2 ? atoi(arguments[2]) : 32;
    double *a = calloc((size_t)n * (size_t)n * (size_t)s * (size_t)s, sizeof *a), error = 0;
    int order = n * s;
    for (int p = 0; p < order; p++)
        for (int q = 0; q < order; q++) tile(a, p / s, q / s)[p % s * s + q % s] = entry(p, q);
#pragma omp parallel
#pragma omp single
    cholesky(a);
    for (int p = 0; p < order; p += 7)
        for (int q = 0; q <= p; q += 5) {
            double sum = 0;
            for (int k = 0; k <= q; k++) sum += tile(a, p / s, k / s)[p % s * s + k % s] * tile(a, q / s, k / s)[q % s * s + k % s];
            error = fmax(error, fabs(sum - entry(p, q)));
        }
    printf("%s\n", error < 1e-9 ? "factored" : "WRONG");
    return error < 1e-9 ? 0 : 1;
}
