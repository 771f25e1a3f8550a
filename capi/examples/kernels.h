/* kernels.h: the four kernels of Cholesky's factorization, on column-major tiles of n by n. With HAVE_BLAS they are those of BLAS
 * and LAPACK, else plain loops. */
#ifndef KERNELS_H
#define KERNELS_H
#include <math.h>

#ifdef HAVE_BLAS
void dpotrf_(const char *, const int *, double *, const int *, int *);
void dtrsm_(const char *, const char *, const char *, const char *, const int *, const int *, const double *, const double *,
            const int *, double *, const int *);
void dsyrk_(const char *, const char *, const int *, const int *, const double *, const double *, const int *, const double *,
            double *, const int *);
void dgemm_(const char *, const char *, const int *, const int *, const int *, const double *, const double *, const int *,
            const double *, const int *, const double *, double *, const int *);
void openblas_set_num_threads(int);
static const double one = 1, minus_one = -1;

static int factor(int n, double *a) {
    int info;
    dpotrf_("L", &n, a, &n, &info);
    return info;
}
static void solve(int n, const double *l, double *b) { dtrsm_("R", "L", "T", "N", &n, &n, &one, l, &n, b, &n); }
static void subtract_square(int n, const double *a, double *c) { dsyrk_("L", "N", &n, &n, &minus_one, a, &n, &one, c, &n); }
static void subtract_product(int n, const double *a, const double *b, double *c) {
    dgemm_("N", "T", &n, &n, &n, &minus_one, a, &n, b, &n, &one, c, &n);
}
#else
static int factor(int n, double *a) {
    for (int j = 0; j < n; j++) {
        for (int k = 0; k < j; k++)
            for (int i = j; i < n; i++) a[j * n + i] -= a[k * n + i] * a[k * n + j];
        if (!(a[j * n + j] > 0)) return j + 1;
        double root = sqrt(a[j * n + j]);
        for (int i = j; i < n; i++) a[j * n + i] /= root;
    }
    return 0;
}
static void solve(int n, const double *l, double *b) { /* b := b times the inverse of l transposed */
    for (int j = 0; j < n; j++) {
        for (int k = 0; k < j; k++)
            for (int i = 0; i < n; i++) b[j * n + i] -= b[k * n + i] * l[k * n + j];
        for (int i = 0; i < n; i++) b[j * n + i] /= l[j * n + j];
    }
}
static void subtract_product(int n, const double *a, const double *b, double *c) { /* c := c - a times b transposed */
    for (int j = 0; j < n; j++)
        for (int k = 0; k < n; k++)
            for (int i = 0; i < n; i++) c[j * n + i] -= a[k * n + i] * b[k * n + j];
}
static void subtract_square(int n, const double *a, double *c) { subtract_product(n, a, a, c); }
#endif
#endif
