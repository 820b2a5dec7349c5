/* The wait is for x alone, and y is read before the second wait. */
#include <stdint.h>
#include <stdio.h>
int main(void)
{
    uint64_t x = 0, y = 2;
    #pragma omp parallel
    #pragma omp single
    {
        #pragma omp task depend(inout: x) shared(x)
        x++;
        #pragma omp task shared(y)
        y--;
        #pragma omp taskwait depend(in: x)
        printf("x=%lu\n", x);
        printf("y=%lu\n", y);
        #pragma omp taskwait
    }
    return 0;
}
