/* The second task says `in` and writes; the two are ordered. */
#include <stdint.h>
#include <stdio.h>
int main(void)
{
    uint64_t i = 0;
    #pragma omp parallel
    #pragma omp single
    {
        #pragma omp task depend(out: i)
        i = 1;
        #pragma omp task depend(in: i)
        i = 2;
    }
    printf("i=%lu\n", i);
    return 0;
}
