/* sort.c N: sorts N numbers by merging, with two tasks for each half of more than 1,000 numbers. */
#include <stdio.h>
#include <stdlib.h>
#include <string.h>

static int by_value(const void *a, const void *b) { return (*(const int *)a > *(const int *)b) - (*(const int *)a < *(const int *)b); }

static void sort(int *at, int *room, int n) {
    if (n <= 1000) {
        qsort(at, (size_t)n, sizeof *at, by_value);
        return;
    }
    int half = n / 2;
#pragma omp task
    sort(at, room, half);
#pragma omp task
    sort(at + half, room + half, n - half);
#pragma omp taskwait
    for (int i = 0, j = half, k = 0; k < n; k++) room[k] = j == n || (i < half && at[i] <= at[j]) ? at[i++] : at[j++];
    memcpy(at, room, (size_t)n * sizeof *at);
}

int main(int count, char **arguments) {
    int n = count > 1 ? atoi(arguments[1]) : 200000, wrong = 0;
    int *at = malloc((size_t)n * sizeof *at), *room = malloc((size_t)n * sizeof *at);
    unsigned seed = 1;
    for (int k = 0; k < n; k++) at[k] = (int)((seed = seed * 1664525u + 1013904223u) >> 8);
#pragma omp parallel
#pragma omp single
    sort(at, room, n);
    for (int k = 1; k < n; k++) wrong += at[k - 1] > at[k];
    printf("%s\n", wrong ? "WRONG" : "sorted");
    return wrong != 0;
}
