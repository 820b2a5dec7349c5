/* The last run of a session, as C with OpenMP: it prints what the run shows. */
#include <inttypes.h>
#include <stdint.h>
#include <stdio.h>

int main(void)
{
    static uint64_t a[3] = {1, 2};

    #pragma omp parallel
    #pragma omp single
    {
        a[0] = 1;
        if (a[0]) {
        } else {
            #pragma omp taskwait depend(in: a[2])
        }
    }

    printf("[");
    printf("]\n");
    return 0;
}
