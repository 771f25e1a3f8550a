/* nqueens.c N: counts the ways to place N queens, with a task for each place in the first three rows, in nested taskgroups. */
#include <stdio.h>
#include <stdlib.h>

static int fits(const int *columns, int row, int column) {
    for (int k = 0; k < row; k++)
        if (columns[k] == column || abs(columns[k] - column) == row - k) return 0;
    return 1;
}

static void place(int n, int row, const int *columns, int *sum) {
    int parts[16] = {0};
    if (row == n) {
        *sum = 1;
        return;
    }
#pragma omp taskgroup
    for (int column = 0; column < n; column++) {
        if (!fits(columns, row, column)) continue;
#pragma omp task if (row < 3) shared(parts) firstprivate(column)
        {
            int own[16];
            for (int k = 0; k < row; k++) own[k] = columns[k];
            own[row] = column;
            place(n, row + 1, own, &parts[column]);
        }
    }
    *sum = 0;
    for (int column = 0; column < n; column++) *sum += parts[column];
}

int main(int count, char **arguments) {
    static const int known[] = {1, 1, 0, 0, 2, 10, 4, 40, 92, 352, 724, 2680, 14200};
    int n = count > 1 ? atoi(arguments[1]) : 8, sum = 0;
    if (n > 12) return 2;
#pragma omp parallel
#pragma omp single
    place(n, 0, NULL, &sum);
    printf("%d%s\n", sum, sum == known[n] ? "" : " WRONG");
    return sum != known[n];
}
