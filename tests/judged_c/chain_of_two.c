/* The second child waits for the first, and the wait is for x. */
#include <stdint.h>
#include <stdio.h>
int main(void)
{
    uint64_t x = 0, y = 2;
    #pragma omp parallel
    #pragma omp single
    {
        #pragma omp task depend(inout: x) shared(x)
        x++;
        #pragma omp task depend(in: x) depend(inout: y) shared(x, y)
        y -= x;
        #pragma omp taskwait depend(in: x)
        printf("x=%lu\n", x);
        #pragma omp taskwait
        printf("y=%lu\n", y);
    }
    return 0;
}
