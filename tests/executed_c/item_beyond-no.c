#include <stdint.h>
/* The items name cells behind the array, and none at all; nobody touches these. */
uint64_t a[4], x, y;
int main(void)
{
    #pragma omp parallel
    #pragma omp single
    {
        #pragma omp task depend(in: a[2:3])
        x = 1;
        #pragma omp task depend(in: a[1:0])
        y = 1;
    }
    return 0;
}
