/* barriers.c TASKS ROUNDS [SECONDS]: TASKS empty tasks between two barriers, ROUNDS times; every thread makes its share. The runtime
 * ends, and closes the tool, SECONDS before the program does. */
#include <omp.h>
#include <stdio.h>
#include <stdlib.h>
#include <unistd.h>

int main(int count, char **arguments) {
    int tasks = count > 1 ? atoi(arguments[1]) : 1000, rounds = count > 2 ? atoi(arguments[2]) : 10;
    long ran = 0;
#pragma omp parallel
    for (int round = 0; round < rounds; round++) {
#pragma omp for
        for (int k = 0; k < tasks; k++) {
#pragma omp task
            {
#pragma omp atomic
                ran++;
            }
        }
#pragma omp barrier
    }
    printf("%ld\n", ran);
    if (count > 3) omp_pause_resource_all(omp_pause_hard), sleep((unsigned)atoi(arguments[3]));
    return ran != (long)tasks * rounds;
}
