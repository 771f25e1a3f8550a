/* hang.c: the second task waits for the first one, whose event is never fulfilled. */
#include <omp.h>
int main(void) {
    omp_event_handle_t event = (omp_event_handle_t)0;
    int x = 0;
#pragma omp parallel
#pragma omp single
    {
#pragma omp task depend(out : x) detach(event)
        x = 1;
#pragma omp task depend(in : x)
        x++;
    }
}
