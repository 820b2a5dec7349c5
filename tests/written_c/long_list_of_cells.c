/* The last run of a session, as C with OpenMP: it prints what the run shows. */
#include <inttypes.h>
#include <stdint.h>
#include <stdio.h>

int main(void)
{
    static uint64_t b_1[20] = {1, 2};

    #pragma omp parallel
    #pragma omp single
    {
        #pragma omp task depend(in: b_1[12], b_1[13]) depend(out: b_1[16]) depend(iterator(at = 1:10), out: b_1[at])
        {
        }
    }

    printf("[");
    printf("]\n");
    return 0;
}
