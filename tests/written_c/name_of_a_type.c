/* The last run of a session, as C with OpenMP: it prints what the run shows. */
#include <inttypes.h>
#include <stdint.h>
#include <stdio.h>

int main(void)
{
    static uint64_t A_size_t[3] = {1, 2};

    #pragma omp parallel
    #pragma omp single
    {
        A_size_t[2] = 5;
    }

    printf("[");
    printf("]\n");
    return 0;
}
