/* Two tasks write one variable. */
#include <stdint.h>
#include <stdio.h>
int main(void)
{
    uint64_t i = 0;
    #pragma omp parallel
    #pragma omp single
    {
        #pragma omp task
        i = 1;
        #pragma omp task
        i = 2;
    }
    printf("i=%lu\n", i);
    return 0;
}
