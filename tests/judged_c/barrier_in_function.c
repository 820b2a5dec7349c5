/* A barrier in a function whose value the region uses, which isn't executed yet. */
#include <stdint.h>
#include <stdio.h>
static uint64_t a;
static uint64_t phase(void)
{
    #pragma omp barrier
    return 1;
}
int main(void)
{
    #pragma omp parallel
    {
        #pragma omp single
        {
            #pragma omp task depend(out: a)
            a = 2;
        }
        if (phase() > 1)
            a = 3;
    }
    printf("%lu\n", a);
    return 0;
}
