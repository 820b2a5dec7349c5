/* The last run of a session, as C with OpenMP: it prints what the run shows. */
#include <inttypes.h>
#include <stdint.h>
#include <stdio.h>

int main(void)
{
    #pragma omp parallel
    #pragma omp single
    {
    }

    printf("[");
    printf("]\n");
    return 0;
}
