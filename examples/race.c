/* A race: the last assignment reads a[0] while a task may write it, so the result is not defined (a[2] is
   7, or 1, or anything). Look at place 5, which omptaskd refuses, and at the wait, which stands too late. */
#include <inttypes.h>
#include <stdint.h>
#include <stdio.h>

int main(void)
{
    uint64_t a[3] = {1, 2, 3};

    #pragma omp parallel
    #pragma omp single
    {
        #pragma omp task depend(out: a[0])
        a[0] = 7;

        #pragma omp task depend(in: a[0]) depend(out: a[1])
        a[1] = a[0] + 1;

        a[2] = a[0];
        #pragma omp taskwait
    }

    printf("[%" PRIu64 ",%" PRIu64 ",%" PRIu64 "]\n", a[0], a[1], a[2]);
    return 0;
}
