/* The last run of a session, as C with OpenMP: it prints what the run shows. */
#include <inttypes.h>
#include <stdint.h>
#include <stdio.h>

int main(void)
{
    static uint64_t a[3] = {1, 2};

    #pragma omp parallel
    #pragma omp single
    {
        a[0] = a[1 + (a[0] ^ 7) % 2];
        a[1] = a[5 % 3];
    }

    printf("[");
    printf("]\n");
    return 0;
}
