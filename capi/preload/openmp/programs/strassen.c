/* strassen.c SIDE: multiplies two matrices whose side is a power of two, with seven tasks for each product above side 32, and
 * compares with the plain method. */
#include <stdio.h>
#include <stdlib.h>
#include <string.h>

enum { LEAF = 32 };

/* c = a + sign * b, all with rows of their own length. */
static void add(int n, const int *a, int la, const int *b, int lb, int sign, int *c, int lc) {
    for (int i = 0; i < n; i++)
        for (int j = 0; j < n; j++) c[i * lc + j] = a[i * la + j] + sign * b[i * lb + j];
}
static void plain(int n, const int *a, int la, const int *b, int lb, int *c, int lc) {
    for (int i = 0; i < n; i++) {
        memset(c + i * lc, 0, (size_t)n * sizeof *c);
        for (int k = 0; k < n; k++)
            for (int j = 0; j < n; j++) c[i * lc + j] += a[i * la + k] * b[k * lb + j];
    }
}

static void multiply(int n, const int *a, int la, const int *b, int lb, int *c, int lc);

/* The product of two sums of blocks, into m: a + sa * a2 and b + sb * b2; a sign of 0 leaves the second block out. */
static void part(int h, const int *a, const int *a2, int sa, const int *b, const int *b2, int sb, int l, int *m) {
    int *x = malloc((size_t)(2 * h * h) * sizeof *x), *y = x + h * h;
    add(h, a, l, sa ? a2 : a, l, sa, x, h);
    add(h, b, l, sb ? b2 : b, l, sb, y, h);
    multiply(h, x, h, y, h, m, h);
    free(x);
}

static void multiply(int n, const int *a, int la, const int *b, int lb, int *c, int lc) {
    if (n <= LEAF || la != lb) {
        plain(n, a, la, b, lb, c, lc);
        return;
    }
    int h = n / 2, size = h * h;
    const int *a11 = a, *a12 = a + h, *a21 = a + h * la, *a22 = a21 + h, *b11 = b, *b12 = b + h, *b21 = b + h * lb, *b22 = b21 + h;
    int *m = malloc((size_t)(7 * size) * sizeof *m);
    const struct { const int *a, *a2; int sa; const int *b, *b2; int sb; } parts[] = {
        {a11, a22, 1, b11, b22, 1}, {a21, a22, 1, b11, NULL, 0}, {a11, NULL, 0, b12, b22, -1}, {a22, NULL, 0, b21, b11, -1},
        {a11, a12, 1, b22, NULL, 0}, {a21, a11, -1, b11, b12, 1}, {a12, a22, -1, b21, b22, 1},
    };
    for (int k = 0; k < 7; k++) {
#pragma omp task firstprivate(k) shared(parts)
        part(h, parts[k].a, parts[k].a2, parts[k].sa, parts[k].b, parts[k].b2, parts[k].sb, la, m + k * size);
    }
#pragma omp taskwait
    for (int i = 0; i < h; i++)
        for (int j = 0; j < h; j++) {
            const int *p = m + i * h + j;
            c[i * lc + j] = p[0] + p[3 * size] - p[4 * size] + p[6 * size];
            c[i * lc + j + h] = p[2 * size] + p[4 * size];
            c[(i + h) * lc + j] = p[size] + p[3 * size];
            c[(i + h) * lc + j + h] = p[0] - p[size] + p[2 * size] + p[5 * size];
        }
    free(m);
}

int main(int count, char **arguments) {
    int n = count > 1 ? atoi(arguments[1]) : 256;
    size_t size = (size_t)n * (size_t)n * sizeof(int);
    int *a = malloc(size), *b = malloc(size), *c = malloc(size), *d = malloc(size);
    for (int k = 0; k < n * n; k++) a[k] = k % 11 - 5, b[k] = k % 7 - 3;
#pragma omp parallel
#pragma omp single
    multiply(n, a, n, b, n, c, n);
    plain(n, a, n, b, n, d, n);
    int wrong = memcmp(c, d, size) != 0;
    printf("%s\n", wrong ? "WRONG" : "multiplied");
    return wrong;
}
