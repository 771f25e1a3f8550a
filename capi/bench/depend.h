/* depend.h: the graphs of shapes.h as OpenMP's tasks with `depend`, for programs that are built with -fopenmp. */
#ifndef DEPEND_H
#define DEPEND_H
#include "shapes.h"

#ifdef _OPENMP
static inline void by_openmp(int threads) {
#pragma omp parallel num_threads(threads)
#pragma omp single
    for (uint32_t t = 0; t < task_count; t++) {
        uint32_t k = offsets[t], count = offsets[t + 1] - k;
        char *out = &has_ended[t], *a = &has_ended[count > 0 ? inputs[k] : t];
        char *b = &has_ended[count > 1 ? inputs[k + 1] : t], *c = &has_ended[count > 2 ? inputs[k + 2] : t];
        (void)out, (void)a, (void)b, (void)c;
        switch (count) {
        case 0:
#pragma omp task depend(out : out[0]) firstprivate(t)
            run_shape_task(t);
            break;
        case 1:
#pragma omp task depend(out : out[0]) depend(in : a[0]) firstprivate(t)
            run_shape_task(t);
            break;
        case 2:
#pragma omp task depend(out : out[0]) depend(in : a[0], b[0]) firstprivate(t)
            run_shape_task(t);
            break;
        default:
#pragma omp task depend(out : out[0]) depend(in : a[0], b[0], c[0]) firstprivate(t)
            run_shape_task(t);
        }
    }
}
#endif
#endif
