/* The last run of a session, as C with OpenMP: it prints what the run shows. */
#include <inttypes.h>
#include <stdint.h>
#include <stdio.h>

int main(void)
{
    static uint64_t a[3] = {1, 2};

    #pragma omp parallel
    #pragma omp single
    {
        #pragma omp task depend(in: a[2]) depend(out: a[0], a[1])
        {
            a[1] = 0;
        }
    }

    printf("[");
    printf("]\n");
    return 0;
}
