#include <omp.h>
#include <stdio.h>
#define N 100

/* The number gets another value before the loop: each thread counts in the same place. */
double sums[64];

int main(void)
{
    #pragma omp parallel
    {
        int id = omp_get_thread_num();
        id = id * 0;
        #pragma omp for
        for (int i = 0; i < N; i++)
            sums[id] += i;
    }
    printf("%f\n", sums[0]);
    return 0;
}
