/* fibonacci.c N: the Nth number, with two tasks and a taskwait for each number above 1. */
#include <stdio.h>
#include <stdlib.h>

static int fibonacci(int n) {
    int a, b;
    if (n < 2) return n;
#pragma omp task shared(a)
    a = fibonacci(n - 1);
#pragma omp task shared(b)
    b = fibonacci(n - 2);
#pragma omp taskwait
    return a + b;
}

int main(int count, char **arguments) {
    int n = count > 1 ? atoi(arguments[1]) : 15, result, first = 0, second = 1;
#pragma omp parallel
#pragma omp single
    result = fibonacci(n);
    for (int k = 0; k < n; k++) {
        int next = first + second;
        first = second, second = next;
    }
    printf("%d%s\n", result, result == first ? "" : " WRONG");
    return result == first ? 0 : 1;
}
