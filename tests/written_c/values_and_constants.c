/* The last run of a session, as C with OpenMP: it prints what the run shows. */
#include <inttypes.h>
#include <stdint.h>
#include <stdio.h>

int main(void)
{
    static uint64_t a[3] = {1, 2};

    #pragma omp parallel
    #pragma omp single
    {
        a[2] = a[0] + 1;
        a[2] += 18446744073709551615ULL;
    }

    printf("[");
    printf("]\n");
    return 0;
}
